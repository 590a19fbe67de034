//! The host's side of the row store: its safe face, the records' layout, a plain opponent, a store
//! of full copies, a judge of records, a picture of a store, and rows in cable order.

pub mod cable;
pub mod copies;
pub mod dice;
pub mod judge;
pub mod layout;
pub mod picture;
pub mod plain;
pub mod store;
