//! Verifiable secret sharing for dock posts: a safe binding of the verified library.
//!
//! The calls are those of `include/gantsorol.h`, on slices. Each is total: any values and any
//! lengths get an answer, which is the call's one job done or the number of the first refusal that
//! applies (see [`Refusal`]). A refused call changes nothing, but for a turn that has taken a line
//! ([`Session::turn`]). The library's one condition, that the lists of a call don't overlap, is kept by
//! Rust's borrows.
//!
//! For x86-64 only. `no_std`: the library needs nothing but `memcpy` and `memset`.
//!
//! A post keeps a [`Session`], which every call takes and hands back, and a list of
//! [`rows_len`]`(n, t, points)` numbers, its rows, which it lends to each call. Numbers are elements 0 to
//! [`MODULUS`] − 1. Store the session that a call hands back, and the rows with it, before the line
//! that the call made is sent: after a power loss an old session would use a triple twice. The
//! header's opening says what else a post needs to know, `docs/INTEGRATING.md` how one is built.
//!
//! Each post of a station has one or two secret check points, at which it checks what others send.
//! Their number is `points` in each call that takes n and t, 1 or 2: any other is answered with
//! [`Refusal::BadCheckPoint`]. A session is made with the list of its own, `&[w]` or `&[w, x]`, whose
//! length says how many they are.
//!
//! Each row has a set of posts that may call for its opening: all of them, unless an `A` line says
//! otherwise while the row is raw ([`Session::access`]). [`Session::opening_message`] takes the number
//! of the post that calls, and is refused with [`Refusal::CallerBarred`] where the row's set,
//! [`Session::callers`], does not have it.
//!
//! Up to eight dealers may send lines to a station: [`Dealers`] has a place for one waiting line of each,
//! [`Dealers::place`] fills it, and [`Session::turn`] takes one line, going round, and deals it.
//!
//! ```
//! // The factory's draw for three posts, two of which open: f = 7 + 4z, and v1, v2, v3.
//! let draw = [7, 4, 1, 2, 3, 1, 5, 6];
//! let mut packs = [0; gantsorol::packs_len(3, 1, 1)];
//! gantsorol::factory_row(3, 1, 1, &[2, 3, 5], &draw, &mut packs)?;
//! assert_eq!(packs[..8], [1, 2, 5, 5, 17, 12, 18, 24]);
//!
//! // With two points a post, v1, v2 and v3 have a coefficient more.
//! let draw = [7, 4, 1, 2, 1, 3, 1, 2, 5, 6, 3];
//! let mut packs = [0; gantsorol::packs_len(3, 1, 2)];
//! gantsorol::factory_row(3, 1, 2, &[2, 4, 3, 5, 5, 7], &draw, &mut packs)?;
//! assert_eq!(packs[..12], [1, 2, 1, 9, 25, 13, 39, 29, 77, 12, 18, 24]);
//! # Ok::<(), gantsorol::Refusal>(())
//! ```

#![deny(missing_docs)]
#![no_std]

#[cfg(any(not(target_arch = "x86_64"), not(target_pointer_width = "64"), windows))]
compile_error!("libgantsorol.a is for x86-64, by the rules of System V");

mod broadcast;
mod dealers;
mod erase;
mod lengths;
mod posts;
mod product;
mod record;
mod refusal;
mod relation;
mod session;
mod sys;
mod testers;
mod works;

pub use broadcast::{read, write_deal, write_masks, write_opening, Line, Written};
pub use dealers::Dealers;
pub use erase::erase;
pub use lengths::*;
pub use posts::Posts;
pub use record::{record_put, record_remove};
pub use refusal::Refusal;
pub use relation::Term;
pub use session::{Answer, Session};
pub use testers::other_draw;
pub use works::{dealer_number, factory_row, factory_triple, write_pack, Number};
