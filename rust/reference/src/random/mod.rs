//! Random calls for comparing two implementations, made from a seed and from no implementation.
//!
//! - [`Script`]: a whole session of one post, with honest and forged records, every call, and
//!   trials in which the call or the session is damaged.
//! - [`Paperwork`]: calls without a session: the factory, the dealer's number, lines, pack files, the
//!   draw behind another secret.
//! - [`street_input`]: an input of the street program.
//! - [`wild_state`], [`wild_calls`], [`odd_triple`]: numbers that no session would come to.
//!
//! [`compare_script`], [`compare_paperwork`] and [`compare_street`] run them on two libraries and
//! cut down what sets these apart to a case that can be read.

mod call;
mod compare;
mod damage;
mod lines;
mod paperwork;
mod rng;
mod script;
mod seen;
mod shared;
mod street;
mod wild;

pub use call::{unwritten, Call, Outcome, State};
pub use compare::{compare_paperwork, compare_script, compare_street, Difference};
pub use damage::Damage;
pub use lines::{callers_line, join, mutate};
pub use paperwork::{paperwork, written, Paperwork, PaperworkOutcome};
pub use paperwork::{OtherDraw, WriteMessage, WritePack};
pub use rng::Rng;
pub use script::{script, script_for, Script, Step};
pub use seen::{Met, Seen, CALL_REFUSALS, PAPERWORK_REFUSALS, STREET_REFUSALS};
pub use shared::{check_points, shape, street_shape, unnoticed, SharedRow};
pub use street::street_input;
pub use wild::{odd_triple, wild_bars, wild_calls, wild_state};
