//! What the binding adds to the calls: sessions kept, refused or not, shown without their check points and erased; terms by rows
//! of any size; sets of posts; the dealers' state; refusals as errors.

use std::error::Error;

use gantsorol::{erase, rows_len, Answer, Dealers, Posts, Refusal, Session, Term};
use gantsorol::{DEALERS, DEALERS_LEN, MAX_POSTS, MODULUS, NO_ROW, ROWS, SETS_LEN};

fn session() -> Session {
    Session::new(3, 1, 2, &[987_654_321, 123_456_789]).accepted().expect("the session is right").0
}

#[test]
fn keep_puts_the_session_back_refused_or_not() {
    let (mut kept, mut rows) = (session(), vec![0; rows_len(3, 1, 2)]);
    assert_eq!(kept.take().load_row(&mut rows, 0, &[0; 12]).keep(&mut kept), Ok(0));
    assert_eq!((kept.marks[0], kept.points), (1, 2));
    assert_eq!((kept.first, kept.second), (987_654_321, 123_456_789));
    let before = kept.clone();
    let refused = kept.take().open(&rows, 0, &[0; 12]).keep(&mut kept);
    assert_eq!(refused, Err(Refusal::WrongMark));
    assert_eq!(kept, before);
    let value = Answer { refusal: 0, value: 5, session: session() }.keep(&mut kept);
    assert_eq!((value, kept), (Ok(5), session()));
}

/// A session that was taken and not put back is refused by every call.
#[test]
fn a_place_without_its_session_is_refused() {
    let mut place = session();
    assert_eq!(place.take(), session());
    assert_eq!(place, Session::default());
    assert_eq!(
        place.deal(&mut vec![0; rows_len(3, 1, 2)], 0, 0).accepted(),
        Err(Refusal::BadPostCount)
    );
}

#[test]
fn a_session_is_shown_without_its_check_points() {
    let answer = Session::new(3, 1, 2, &[987_654_321, 123_456_789]);
    for shown in [format!("{:?}", session()), format!("{answer:#?}")] {
        assert!(shown.contains("post: 2") && shown.contains("points: 2") && shown.contains("y_b"));
        for hidden in ["987654321", "123456789", "first", "second"] {
            assert!(!shown.contains(hidden), "{shown}");
        }
    }
}

/// One or two check points make a session, and with one the second is 0; any other number of them gets 4.
#[test]
fn a_session_takes_one_check_point_or_two() {
    let taken = |own: &[u32]| {
        let (session, _) = Session::new(3, 1, 2, own).accepted()?;
        Ok((session.points, session.first, session.second))
    };
    let bad = Err(Refusal::BadCheckPoint);
    assert_eq!(taken(&[7]), Ok((1, 7, 0)));
    assert_eq!(taken(&[7, 5]), Ok((2, 7, 5)));
    assert_eq!(taken(&[7, 7]), Ok((2, 7, 7)));
    for own in [&[][..], &[0], &[MODULUS], &[7, 0], &[7, MODULUS], &[0, 7], &[7, 5, 3], &[7; 255]] {
        assert_eq!(taken(own), bad, "{own:?}");
    }
}

#[test]
fn erasing_leaves_zeros() {
    let mut full =
        Session { marks: [7; ROWS], factor_a: [7; ROWS], factor_b: [7; ROWS], ..session() };
    (full.y_a, full.y_b, full.barred) = ([7; ROWS], [7; ROWS], [7; SETS_LEN]);
    full.erase();
    assert_eq!(full, Session::default());
    let mut text = *b"R,0,1";
    erase(&mut text);
    assert_eq!(text, [0; 5]);
}

/// Any numbers make a set, and those of posts are in it.
#[test]
fn a_set_of_posts() {
    let numbers = [255, 3, 1, 3, 0, 256, 1 << 32 | 1, usize::MAX, 64, 33, 32];
    let posts = Posts::of(&numbers);
    assert_eq!(posts.iter().collect::<Vec<_>>(), [1, 3, 32, 33, 64, 255]);
    for post in (0..1000).chain([1 << 32 | 1, usize::MAX]) {
        assert_eq!(posts.has(post), numbers.contains(&post) && (1..=MAX_POSTS).contains(&post));
        assert_eq!(Posts::all(64).has(post), (1..=64).contains(&post));
        assert_eq!(Posts::all(usize::MAX).has(post), (1..=MAX_POSTS).contains(&post));
        let shared = posts.shared(Posts::all(33));
        assert_eq!(shared.has(post), posts.has(post) && post <= 33);
    }
    assert_eq!((Posts::of(&[]), Posts::default()), (Posts::NONE, Posts::NONE));
    assert_eq!(Posts::NONE.iter().count(), 0);
}

/// A row's callers are those that a message is made for, whatever bits stand in the session; no other row has any.
#[test]
fn the_callers_of_a_row() {
    let bits = |place: usize| (place as u32 + 1).wrapping_mul(0x9E37_79B9);
    for n in [2, 31, 32, 33, 254, 255] {
        let mut session = Session::new(n, 1, 1, &[5]).accepted().expect("the session is right").0;
        assert_eq!(session.callers(ROWS - 1), Posts::all(n));
        (session.barred, session.marks) = (std::array::from_fn(bits), [2; ROWS]);
        let rows = vec![0; rows_len(n, 1, 1)];
        for row in [0, 1, 50, ROWS - 1] {
            let called = |caller: &usize| {
                session.clone().opening_message(&rows, row, *caller, &mut [0; 2]).refusal == 0
            };
            assert_eq!(session.callers(row), (0..300).filter(called).collect());
        }
        assert_eq!([ROWS, usize::MAX].map(|row| session.callers(row)), [Posts::NONE; 2]);
    }
    assert_eq!(Session { n: MAX_POSTS + 1, ..session() }.callers(0), Posts::NONE);
}

#[test]
fn a_session_shows_the_rows_that_not_every_post_may_call_for() {
    let (mut kept, mut rows) = (session(), vec![0; rows_len(3, 1, 2)]);
    assert!(format!("{kept:?}").contains("callers: {}"));
    for (row, line) in [(4, "A,4,1,3\n"), (9, "A,9,\n"), (95, "A,95,1,2,3\n")] {
        kept.take().load_row(&mut rows, row, &[0; 12]).keep(&mut kept).expect("a row");
        kept.take().access(line.as_bytes()).keep(&mut kept).expect("a line");
    }
    assert!(format!("{kept:?}").contains("callers: {4: {1, 3}, 9: {}}"), "{kept:?}");
}

/// What waits is what was placed, until it is taken; nothing waits at a dealer that there is not, or behind a wrong length.
#[test]
fn the_lines_that_wait() {
    let mut dealers = Dealers::default();
    assert_eq!((dealers.last(), dealers.0[1..].to_vec()), (8, vec![0; DEALERS_LEN - 1]));
    for dealer in 1..=DEALERS {
        assert_eq!(dealers.waiting(dealer), None);
        let line = format!("D,{dealer},{dealer}\n");
        assert_eq!(dealers.place(dealer, line.as_bytes()), Ok(()));
        assert_eq!(dealers.waiting(dealer), Some(line.as_bytes()));
    }
    assert_eq!([0, 9, usize::MAX].map(|dealer| dealers.waiting(dealer)), [None; 3]);
    assert_eq!(dealers.place(9, b"D,0,0\n"), Err(Refusal::BadDealer));
    let (mut kept, mut rows) = (session(), vec![0; rows_len(3, 1, 2)]);
    kept.take().load_row(&mut rows, 1, &[0; 12]).keep(&mut kept).expect("a row");
    assert_eq!(kept.take().turn(&mut rows, &mut dealers).keep(&mut kept), Ok(0));
    assert_eq!((dealers.last(), dealers.waiting(1), kept.marks[1]), (1, None, 2));
    for dealer in 2..=DEALERS {
        let refused = kept.take().turn(&mut rows, &mut dealers).keep(&mut kept);
        assert_eq!((refused, dealers.last()), (Err(Refusal::WrongMark), dealer));
        assert_eq!(dealers.waiting(dealer), None);
    }
    let idle = dealers.clone();
    assert_eq!(kept.take().turn(&mut rows, &mut dealers).keep(&mut kept), Ok(0));
    assert_eq!(dealers, idle);
    dealers.0[1] = 17;
    assert_eq!(dealers.waiting(1), None);
    assert_eq!(dealers.place(2, b"D,0,0\n"), Err(Refusal::BadDealer));
}

#[test]
fn a_dealers_state_is_shown_as_its_lines() {
    let mut dealers = Dealers::new();
    assert_eq!(format!("{dealers:?}"), "Dealers { last: 8, waiting: {} }");
    dealers.place(3, b"D,0,93\n").expect("a free place");
    let expected = "Dealers { last: 8, waiting: {3: D,0,93\\n} }";
    assert_eq!(format!("{dealers:?}"), expected);
}

/// A row that no session has is refused with 6, also where its number is no byte or stands for no second row.
#[test]
fn a_term_takes_any_row() {
    let (session, rows) = (session(), vec![0; rows_len(3, 1, 2)]);
    for row in [ROWS, 254, 255, 256, 256 + 5, usize::MAX] {
        let refused = |terms: &[Term], len| {
            session.clone().relation_masks(&rows, terms, &mut vec![0; len]).accepted()
        };
        for term in
            [Term::product(1, row, 0, 0), Term::product(1, 0, row, 0), Term::product(1, 0, 0, row)]
        {
            assert_ne!(term.second, NO_ROW);
            assert_eq!(refused(&[term], 6), Err(Refusal::NoSuchRow), "{row}");
        }
        assert_eq!(refused(&[Term::plain(1, row)], 0), Err(Refusal::NoSuchRow), "{row}");
    }
    let term = Term::product(7, 95, 94, 93);
    assert_eq!((term.coefficient, term.row, term.second, term.first), (7, 95, 94, 93));
    assert_eq!(Term::plain(7, 95).second, NO_ROW);
}

#[test]
fn a_refusal_is_an_error() {
    let failed = || -> Result<(), Box<dyn Error>> {
        Session::new(1, 1, 1, &[1]).accepted()?;
        Ok(())
    };
    let error = failed().expect_err("one post is too few");
    assert_eq!(error.downcast_ref(), Some(&Refusal::BadPostCount));
    assert_eq!(error.to_string(), "refusal 1: the number of posts n is outside 2 to 255");
}
