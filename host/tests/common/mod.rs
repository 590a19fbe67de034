//! A store and its full copies side by side: every call is made on both, and everything compared.
#![allow(dead_code)] // Each test binary uses a part of this.

pub mod calls;
pub mod tally;
pub mod trial;

/// Makes each test for the plain store and, where it is linked, for the proved one.
#[macro_export]
macro_rules! for_each_store {
    ($($test:ident),* $(,)?) => {
        mod plain {
            $(#[test] fn $test() { super::$test::<rowstore_host::plain::Plain>() })*
        }
        #[cfg(feature = "linked")]
        mod proved {
            $(#[test] fn $test() { super::$test::<rowstore_host::store::Proved>() })*
        }
    };
}
