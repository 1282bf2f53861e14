//! A second implementation of the receiver station, of replay scripts and of
//! encoded calls, written from documents 01 and 02, the replay page and the
//! page on encoded calls alone. Comparison tests run the same script through
//! this one and through the library.

pub mod count;
pub mod encoded;
pub mod padding;
pub mod pings;
pub mod random;
pub mod script;
pub mod serials;
pub mod station;
pub mod store;
pub mod stores;
pub mod tally;
