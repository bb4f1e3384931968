//! Verifiable secret sharing for dock posts: a second implementation of document 01 and of the
//! requests of document 02, in plain Rust, written from the papers alone.
//!
//! Each call is a function over the modulus `P`, so that the same code runs over
//! p = [`MODULUS`] and over the small primes of the leak test. [`Library`] names every call once
//! more as a trait, which another implementation can fulfil to be compared with [`REFERENCE`];
//! [`random`] makes the calls to compare them with.
//!
//! ```
//! use reference::{Library, REFERENCE};
//!
//! let (refusal, c) = REFERENCE.dealer_number(100, 7);
//! assert_eq!((refusal, c), (0, 93));
//! ```

mod callers;
mod calls;
mod dealers;
mod factory;
mod field;
mod library;
mod lines;
mod opening;
mod other_draw;
mod pack;
pub mod polynomial;
mod product;
pub mod random;
mod refusal;
mod relation;
mod row;
mod session;
mod shape;
mod street;

pub use callers::{set_callers, Barred};
pub use calls::{deal, linear, load_row, load_triple, opening_message};
pub use dealers::{new_dealers, place_line, turn, DEALERS, DEALERS_STATE, PLACE};
pub use factory::{dealer_number, factory_row, factory_triple};
pub use field::{Element, MODULUS};
pub use library::{Library, Reference, REFERENCE};
pub use lines::{read, write_deal, write_masks, write_opening, ReadLine, Written};
pub use opening::open;
pub use other_draw::other_draw;
pub use pack::write_pack;
pub use product::{masks, multiply, open_masks};
pub use refusal::Refusal;
pub use relation::{relation_finish, relation_masks, Term, MAX_TERMS, NO_ROW};
pub use session::{mark, new_session, Answer, Session};
pub use shape::{Shape, MAX_POINTS, MAX_POSTS, ROWS, TRIPLE};
pub use street::{street, Reply, Street, LONGEST_LINE, STREET_POSTS};
