//! An independent reading of the certificate store's rules (documents 01 and 02), written for the eye.
//!
//! The calls work on two tables of bytes that the caller lends. What comes after them is
//! there to try the rules: invariants, random histories, arbitrary bytes, rules broken.

pub mod answer;
pub mod field;
pub mod key;
pub mod layout;
pub mod page;
pub mod place;
pub mod report;
pub mod session;
pub mod tree;
pub mod walk;
pub mod way;

pub mod batch;
mod crash;
mod file;
mod format;
mod insert;
mod open;
mod read;
pub mod read_file;
mod split;
mod sync;
mod withdraw;

pub mod bench;
pub mod broken;
pub mod bytes;
#[cfg(store)]
pub mod compare;
pub mod driver;
pub mod histories;
pub mod invariant;
#[cfg(store)]
pub mod lean;
pub mod lines;
#[cfg(store)]
pub mod proved;
pub mod reasons;
pub mod rng;
pub mod store;
pub mod without;

pub use batch::{batch, Item};
pub use crash::crash;
pub use file::{file_of, file_of_set, told_by, write_file, Written};
pub use format::format;
pub use insert::{insert, Changed};
pub use open::open;
pub use read::{has_any, list, lookup, newest, HasAny, Listed, Looked, Newest};
pub use read_file::{read_file, ReadFile};
pub use session::Session;
pub use sync::{number_ahead, sync};
pub use withdraw::withdraw;
