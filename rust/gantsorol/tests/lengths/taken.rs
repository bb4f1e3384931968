//! The library takes exactly the lengths that the binding says.

use gantsorol::*;

use super::SIZES;

/// The library takes this length, and with 5 refuses one less and one more.
#[track_caller]
fn check_exact(length: usize, refusal: impl Fn(usize) -> u8) {
    assert_eq!(
        [length - 1, length, length + 1].map(refusal).map(|number| number == 5),
        [true, false, true]
    );
}

fn number_of(done: Result<(), Refusal>) -> u8 {
    done.err().map_or(0, Refusal::number)
}

/// A session of this size.
pub fn session([n, t, points]: [usize; 3]) -> Session {
    Session::new(n, t, 1, &[5, 6][..points]).accepted().expect("the session is right").0
}

#[test]
fn the_library_takes_these_lengths() {
    for size in SIZES {
        let [n, t, points] = size;
        let list = |len: usize| vec![0; len];
        let post = || session(size);
        let rows = list(rows_len(n, t, points));
        check_exact(rows.len(), |len| post().deal(&mut list(len), 0, 0).refusal);
        let pack = |len| post().load_row(&mut rows.clone(), 0, &list(len)).refusal;
        check_exact(row_len(n, t, points), pack);
        let pack = |len| post().load_triple(&mut rows.clone(), 0, &list(len)).refusal;
        check_exact(triple_pack_len(n, t, points), pack);
        let message = |len| post().opening_message(&rows, 0, 1, &mut list(len)).refusal;
        check_exact(message_len(t, points), message);
        check_exact(record_len(n, t, points), |len| post().open(&rows, 0, &list(len)).refusal);
        let masks = |len| post().masks(&rows, 0, 0, 0, &mut list(len)).refusal;
        check_exact(masks_len(t, points), masks);
        let terms = [Term::product(1, 0, 0, 1), Term::plain(1, 0), Term::product(1, 0, 0, 4)];
        let masks = |len| post().relation_masks(&rows, &terms, &mut list(len)).refusal;
        check_exact(relation_masks_len(t, points, 2), masks);
        let records =
            |len| post().relation_finish(&mut rows.clone(), &terms, 7, &list(len)).refusal;
        check_exact(relation_records_len(n, t, points, 2), records);
        check_exact(rows.len(), |len| post().turn(&mut list(len), &mut Dealers::new()).refusal);
        let line = |len| read(n, t, points, b"", &mut list(len)).refusal;
        check_exact(line_list_len(t, points), line);
    }
}

#[test]
fn the_factory_takes_these_lengths() {
    for [n, t, points] in SIZES {
        let list = |len: usize| vec![0; len];
        let own = vec![1; check_points_len(n, points)];
        let (draw, packs) = (list(row_draw_len(n, t, points)), list(packs_len(n, t, points)));
        let row = |own: &[u32], draw: &[u32], out: usize| {
            number_of(factory_row(n, t, points, own, draw, &mut list(out)))
        };
        check_exact(own.len(), |len| row(&vec![1; len], &draw, packs.len()));
        check_exact(draw.len(), |len| row(&own, &list(len), packs.len()));
        check_exact(packs.len(), |len| row(&own, &draw, len));
        let other = |own: &[u32], draw: &[u32], out: usize| {
            number_of(other_draw(n, t, points, own, draw, 3, 4, &[n as u32], &mut list(out)))
        };
        check_exact(own.len(), |len| other(&vec![1; len], &draw, draw.len()));
        check_exact(draw.len(), |len| other(&own, &list(len), draw.len()));
        check_exact(draw.len(), |len| other(&own, &draw, len));
        let (draw, packs) =
            (list(triple_draw_len(n, t, points)), list(triple_packs_len(n, t, points)));
        let triple = |own: &[u32], draw: &[u32], out: usize| {
            number_of(factory_triple(n, t, points, own, draw, &mut list(out)))
        };
        check_exact(own.len(), |len| triple(&vec![1; len], &draw, packs.len()));
        check_exact(draw.len(), |len| triple(&own, &list(len), packs.len()));
        check_exact(packs.len(), |len| triple(&own, &draw, len));
    }
}
