//! Broadcast lines: "ASCII, fields parted by commas, no quoting, one line feed at the end."

mod parse;
mod read;
mod write;

pub(crate) use parse::{body, number, numbers};
pub use read::{read, ReadLine};
pub(crate) use read::{try_read, try_read_deal};
pub(crate) use write::{line, put, try_write_masks};
pub use write::{write_deal, write_masks, write_opening, Written};
