//! Full copies of all versions in LMDB, called through its C interface: every row of every version
//! has a key of its own. Each call is one transaction, and none is made durable.

use std::ffi::{c_char, c_int, c_uint, c_void, CStr, CString};
use std::path::PathBuf;
use std::{env, fs, process, ptr, slice};

/// The flags of the environment, by lmdb.h, and their names.
const FLAGS: c_uint = 0x10000 | 0x40000 | 0x80000;
pub const FLAG_NAMES: &str = "MDB_NOSYNC|MDB_NOMETASYNC|MDB_WRITEMAP";

/// Of a transaction that changes nothing, and of a put behind all keys.
const RDONLY: c_uint = 0x20000;
const APPEND: c_uint = 0x20000;

/// The steps of a cursor.
const NEXT: c_int = 8;
const SET_KEY: c_int = 16;

/// The database that lists free pages.
const FREE_PAGES: c_uint = 0;

/// More than all copies take.
const MAP_SIZE: usize = 1 << 28;

/// Pages that every environment has at its front.
const META_PAGES: usize = 2;

type Env = *mut c_void;
type Txn = *mut c_void;
type Cursor = *mut c_void;

#[repr(C)]
struct Val {
    size: usize,
    data: *mut c_void,
}

#[repr(C)]
#[derive(Default)]
struct Stat {
    page_size: c_uint,
    _depth: c_uint,
    branch_pages: usize,
    leaf_pages: usize,
    overflow_pages: usize,
    entries: usize,
}

#[repr(C)]
struct Info {
    _map_address: *mut c_void,
    _map_size: usize,
    last_page: usize,
    _last_txn: usize,
    _max_readers: c_uint,
    _readers: c_uint,
}

#[link(name = "lmdb")]
extern "C" {
    fn mdb_version(major: *mut c_int, minor: *mut c_int, patch: *mut c_int) -> *const c_char;
    fn mdb_env_create(env: *mut Env) -> c_int;
    fn mdb_env_set_mapsize(env: Env, size: usize) -> c_int;
    fn mdb_env_open(env: Env, path: *const c_char, flags: c_uint, mode: c_uint) -> c_int;
    fn mdb_env_info(env: Env, info: *mut Info) -> c_int;
    fn mdb_env_close(env: Env);
    fn mdb_txn_begin(env: Env, parent: Txn, flags: c_uint, txn: *mut Txn) -> c_int;
    fn mdb_txn_commit(txn: Txn) -> c_int;
    fn mdb_txn_abort(txn: Txn);
    fn mdb_txn_reset(txn: Txn);
    fn mdb_txn_renew(txn: Txn) -> c_int;
    fn mdb_dbi_open(txn: Txn, name: *const c_char, flags: c_uint, dbi: *mut c_uint) -> c_int;
    fn mdb_stat(txn: Txn, dbi: c_uint, stat: *mut Stat) -> c_int;
    fn mdb_get(txn: Txn, dbi: c_uint, key: *mut Val, data: *mut Val) -> c_int;
    fn mdb_put(txn: Txn, dbi: c_uint, key: *mut Val, data: *mut Val, flags: c_uint) -> c_int;
    fn mdb_cursor_open(txn: Txn, dbi: c_uint, cursor: *mut Cursor) -> c_int;
    fn mdb_cursor_get(cursor: Cursor, key: *mut Val, data: *mut Val, step: c_int) -> c_int;
    fn mdb_cursor_put(cursor: Cursor, key: *mut Val, data: *mut Val, flags: c_uint) -> c_int;
    fn mdb_cursor_del(cursor: Cursor, flags: c_uint) -> c_int;
}

pub fn version() -> String {
    let none = ptr::null_mut();
    let text = unsafe { CStr::from_ptr(mdb_version(none, none, none)) };
    text.to_string_lossy().into_owned()
}

fn check(answer: c_int) {
    assert_eq!(answer, 0, "LMDB's answer");
}

impl Val {
    fn of(bytes: &[u8]) -> Val {
        Val {
            size: bytes.len(),
            data: bytes.as_ptr() as *mut c_void,
        }
    }

    /// For what LMDB gave, and before the transaction changes anything.
    unsafe fn copy_to(&self, out: &mut [u8]) {
        out.copy_from_slice(slice::from_raw_parts(self.data.cast(), self.size));
    }
}

/// In the order of the versions, and then of their rows.
fn key(tag: u16, row: usize) -> [u8; 4] {
    let ([a, b], [c, d]) = (tag.to_be_bytes(), (row as u16).to_be_bytes());
    [a, b, c, d]
}

/// Goes through the rows of a version, all of which are there.
struct Walk {
    cursor: Cursor,
    tag: u16,
    row: usize,
}

impl Walk {
    /// The cursor ends with the transaction, which is one that writes.
    unsafe fn of(txn: Txn, dbi: c_uint, tag: u16) -> Walk {
        let mut cursor = ptr::null_mut();
        check(mdb_cursor_open(txn, dbi, &mut cursor));
        Walk {
            cursor,
            tag,
            row: 0,
        }
    }

    unsafe fn next(&mut self) -> Val {
        let first = key(self.tag, 0);
        let (mut at, mut data) = (Val::of(&first), Val::of(&[]));
        let step = if self.row == 0 { SET_KEY } else { NEXT };
        check(mdb_cursor_get(self.cursor, &mut at, &mut data, step));
        self.row += 1;
        data
    }

    unsafe fn put_next(&mut self, bytes: &[u8], flags: c_uint) {
        let at = key(self.tag, self.row);
        let (mut at, mut data) = (Val::of(&at), Val::of(bytes));
        check(mdb_cursor_put(self.cursor, &mut at, &mut data, flags));
        self.row += 1;
    }
}

/// What the copies take, in bytes.
pub struct Memory {
    /// Of the pages in use.
    pub used: usize,
    /// Of all pages up to the last one, free ones among them.
    pub spanned: usize,
}

/// The environment, in a directory of its own, which goes with it.
pub struct Copies {
    env: Env,
    dbi: c_uint,
    /// A transaction that reads, renewed by each call that needs one.
    reader: Txn,
    directory: PathBuf,
    rows: usize,
    width: usize,
}

impl Copies {
    pub fn new(rows: usize, width: usize) -> Copies {
        let directory = env::temp_dir().join(format!("rowstore-bench-{}", process::id()));
        fs::create_dir(&directory).expect("a directory for LMDB");
        let path = CString::new(directory.to_str().expect("a path in UTF-8")).expect("a path");
        let (mut env, mut txn, mut reader) = (ptr::null_mut(), ptr::null_mut(), ptr::null_mut());
        let mut dbi = 0;
        unsafe {
            check(mdb_env_create(&mut env));
            check(mdb_env_set_mapsize(env, MAP_SIZE));
            check(mdb_env_open(env, path.as_ptr(), FLAGS, 0o600));
            check(mdb_txn_begin(env, ptr::null_mut(), 0, &mut txn));
            check(mdb_dbi_open(txn, ptr::null(), 0, &mut dbi));
            check(mdb_txn_commit(txn));
            check(mdb_txn_begin(env, ptr::null_mut(), RDONLY, &mut reader));
            mdb_txn_reset(reader);
        }
        Copies {
            env,
            dbi,
            reader,
            directory,
            rows,
            width,
        }
    }

    fn change(&self, act: impl FnOnce(Txn)) {
        let mut txn = ptr::null_mut();
        check(unsafe { mdb_txn_begin(self.env, ptr::null_mut(), 0, &mut txn) });
        act(txn);
        check(unsafe { mdb_txn_commit(txn) });
    }

    fn view<T>(&self, act: impl FnOnce(Txn) -> T) -> T {
        check(unsafe { mdb_txn_renew(self.reader) });
        let seen = act(self.reader);
        unsafe { mdb_txn_reset(self.reader) };
        seen
    }

    /// Adds a version with all its rows, behind those of lower tags; so the pages are full.
    pub fn load(&self, tag: u16, bytes: &[u8]) {
        self.change(|txn| unsafe {
            let mut to = Walk::of(txn, self.dbi, tag);
            for row in bytes.chunks(self.width) {
                to.put_next(row, APPEND);
            }
        });
    }

    pub fn snapshot(&self, source: u16, tag: u16) {
        let mut bytes = vec![0; self.width];
        self.change(|txn| unsafe {
            let mut from = Walk::of(txn, self.dbi, source);
            let mut to = Walk::of(txn, self.dbi, tag);
            for _ in 0..self.rows {
                from.next().copy_to(&mut bytes);
                to.put_next(&bytes, 0);
            }
        });
    }

    pub fn read(&self, tag: u16, row: usize, out: &mut [u8]) {
        let at = key(tag, row);
        let (mut at, mut data) = (Val::of(&at), Val::of(&[]));
        self.view(|txn| unsafe {
            check(mdb_get(txn, self.dbi, &mut at, &mut data));
            data.copy_to(out);
        });
    }

    pub fn write(&self, tag: u16, row: usize, bytes: &[u8]) {
        let at = key(tag, row);
        let (mut at, mut data) = (Val::of(&at), Val::of(bytes));
        self.change(|txn| unsafe {
            check(mdb_put(txn, self.dbi, &mut at, &mut data, 0));
        });
    }

    pub fn delete(&self, tag: u16) {
        self.change(|txn| unsafe {
            let mut rows = Walk::of(txn, self.dbi, tag);
            for _ in 0..self.rows {
                rows.next();
                check(mdb_cursor_del(rows.cursor, 0));
            }
        });
    }

    /// How many versions there are.
    pub fn count(&self) -> usize {
        self.stat(self.dbi).entries / self.rows
    }

    fn stat(&self, dbi: c_uint) -> Stat {
        let mut stat = Stat::default();
        self.view(|txn| check(unsafe { mdb_stat(txn, dbi, &mut stat) }));
        stat
    }

    pub fn memory(&self) -> Memory {
        let (rows, free) = (self.stat(self.dbi), self.stat(FREE_PAGES));
        let pages = |stat: &Stat| stat.branch_pages + stat.leaf_pages + stat.overflow_pages;
        let page_size = rows.page_size as usize;
        Memory {
            used: page_size * (META_PAGES + pages(&rows) + pages(&free)),
            spanned: page_size * (self.last_page() + 1),
        }
    }

    fn last_page(&self) -> usize {
        let mut info = Info {
            _map_address: ptr::null_mut(),
            _map_size: 0,
            last_page: 0,
            _last_txn: 0,
            _max_readers: 0,
            _readers: 0,
        };
        check(unsafe { mdb_env_info(self.env, &mut info) });
        info.last_page
    }
}

impl Drop for Copies {
    fn drop(&mut self) {
        unsafe {
            mdb_txn_abort(self.reader);
            mdb_env_close(self.env);
        }
        // What cannot be removed is left behind.
        let _ = fs::remove_dir_all(&self.directory);
    }
}
