//! "Several dealers at one station": a place for one waiting line each, and turns that go round.

use crate::calls::try_deal;
use crate::lines::try_read_deal;
use crate::refusal::{number_of, require, Refusal};
use crate::session::{Answer, Session};
use crate::shape::{expect_length, Shape};

/// "Up to eight dealers send lines."
pub const DEALERS: usize = 8;

/// "A place holds 16 bytes, the longest D line."
pub const PLACE: usize = 16;

/// "The lent state has 137 bytes: the last dealer, then for each dealer's place a length, 0 when free,
/// and the 16 bytes."
pub const DEALERS_STATE: usize = 1 + DEALERS * (1 + PLACE);

/// Where in the state the length of a dealer's place stands, which its 16 bytes follow.
fn place_of(dealer: usize) -> usize {
    1 + (dealer - 1) * (1 + PLACE)
}

/// Check 16 for a dealer.
fn expect_dealer(dealer: usize) -> Result<(), Refusal> {
    require((1..=DEALERS).contains(&dealer), Refusal::Dealer)
}

/// Check 5, then 16: "a last dealer outside 1..8 or a place over 16 bytes".
fn expect_state(state: &[u8]) -> Result<(), Refusal> {
    expect_length(state, DEALERS_STATE)?;
    expect_dealer(state[0].into())?;
    let fits = |dealer| usize::from(state[place_of(dealer)]) <= PLACE;
    require((1..=DEALERS).all(fits), Refusal::Dealer)
}

/// The line that waits in a dealer's place, of a state that was checked; empty for none.
fn waiting(state: &[u8], dealer: usize) -> &[u8] {
    let place = place_of(dealer);
    &state[place + 1..][..state[place].into()]
}

/// "A new state holds 8 as last served, then zeros", in a lent list of 137 bytes; the refusal, 0 for
/// none.
pub fn new_dealers(state: &mut [u8]) -> u8 {
    number_of(try_new_dealers(state))
}

fn try_new_dealers(state: &mut [u8]) -> Result<(), Refusal> {
    expect_length(state, DEALERS_STATE)?;
    state.fill(0);
    state[0] = DEALERS as u8;
    Ok(())
}

/// A dealer's line goes to its place: "it refuses with 16 a dealer outside 1..8, then with 17 a line for
/// a place still filled, then with 10 an empty or longer line". The refusal, 0 for none.
pub fn place_line(state: &mut [u8], dealer: usize, line: &[u8]) -> u8 {
    number_of(try_place_line(state, dealer, line))
}

fn try_place_line(state: &mut [u8], dealer: usize, line: &[u8]) -> Result<(), Refusal> {
    expect_state(state)?;
    expect_dealer(dealer)?;
    require(waiting(state, dealer).is_empty(), Refusal::Filled)?;
    require((1..=PLACE).contains(&line.len()), Refusal::Form)?;
    let place = place_of(dealer);
    state[place] = line.len() as u8;
    // Bytes "behind a shorter line stay as they are".
    state[place + 1..][..line.len()].copy_from_slice(line);
    Ok(())
}

/// "A turn takes one line: from the dealer after the one last served, going round, the first with a
/// line waiting." "The line is then read, 10 for any but a D line, and dealt."
///
/// "If no line waits, the turn isn't refused and changes nothing." "A line refused once it is taken
/// frees its place and counts as served too: the turn returns that refusal, and the place and the last
/// dealer are all that it changes."
pub fn turn<const P: u32>(s: Session, rows: &mut [u32], state: &mut [u8]) -> Answer {
    s.answer(try_turn::<P>(s, rows, state))
}

fn try_turn<const P: u32>(
    s: Session,
    rows: &mut [u32],
    state: &mut [u8],
) -> Result<(u32, Session), Refusal> {
    let shape = s.checked::<P>()?;
    expect_length(rows, shape.all_rows())?;
    expect_state(state)?;
    match take_line(state) {
        Some(line) => deal_line::<P>(shape, s, rows, &line),
        None => Ok((0, s)),
    }
}

/// The next line, whose place is freed and whose dealer is the last served; `None` if no line waits.
fn take_line(state: &mut [u8]) -> Option<Vec<u8>> {
    let last = usize::from(state[0]);
    let mut round = (0..DEALERS).map(|step| (last + step) % DEALERS + 1);
    let dealer = round.find(|&dealer| !waiting(state, dealer).is_empty())?;
    let line = waiting(state, dealer).to_vec();
    state[0] = dealer as u8;
    // The bytes "of a freed place ... stay as they are".
    state[place_of(dealer)] = 0;
    Some(line)
}

fn deal_line<const P: u32>(
    shape: Shape,
    s: Session,
    rows: &mut [u32],
    line: &[u8],
) -> Result<(u32, Session), Refusal> {
    let (row, c) = try_read_deal::<P>(shape, line)?;
    try_deal::<P>(s, rows, row, c)
}
