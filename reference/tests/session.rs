//! The editing session: its calls, its refusals and which values are sound.

use waroth_reference::generate::draft::Draft;
use waroth_reference::generate::random::Random;
use waroth_reference::generate::sheets::{self, SESSION_FAULTS};
use waroth_reference::judge::{Judged, Verdict, LEVELS};
use waroth_reference::session::{Session, AMEND, EDIT_BYTES, ENTER, STRIKE};

fn opened() -> Session {
    let mut session = Session::closed();
    session.open(&Draft::pool().store()).expect("accepted");
    session
}

fn sheet(session: &Session) -> &[u8] {
    &session.sheet[..(session.steps * session.agents) as usize]
}

#[test]
fn edits_undo_and_redo() {
    let mut session = opened();
    assert_eq!(session.undo(), Err(12));
    assert_eq!(session.redo(), Err(13));
    assert_eq!(session.strike(), Err(11));
    session.enter(&[1, 0]).unwrap();
    session.enter(&[0, 2]).unwrap();
    session.amend(1, &[0, 0]).unwrap();
    assert_eq!(sheet(&session), [0, 0, 0, 2]);
    session.strike().unwrap();
    assert_eq!(sheet(&session), [0, 0]);
    assert_eq!(session.sheet[2..], [0; 1022]);
    session.undo().unwrap();
    assert_eq!(sheet(&session), [0, 0, 0, 2]);
    session.undo().unwrap();
    assert_eq!(sheet(&session), [1, 0, 0, 2]);
    session.redo().unwrap();
    assert_eq!(sheet(&session), [0, 0, 0, 2]);
    assert_eq!((session.standing, session.total), (3, 4));
    // A new edit drops the undone one and gives its room back.
    session.enter(&[7, 7]).unwrap();
    assert_eq!((session.standing, session.total), (4, 4));
    assert_eq!(session.redo(), Err(13));
    assert_eq!(sheet(&session), [0, 0, 0, 2, 7, 7]);
    let kinds: Vec<_> = session.log.chunks(EDIT_BYTES).map(|edit| edit[0]).collect();
    assert_eq!(kinds[..5], [ENTER, ENTER, AMEND, ENTER, 0]);
    assert_ne!(kinds[3], STRIKE);
}

#[test]
fn amending_a_step_to_itself_is_an_edit() {
    let mut session = opened();
    session.enter(&[1, 2]).unwrap();
    session.amend(1, &[1, 2]).unwrap();
    assert_eq!(session.standing, 2);
    session.undo().unwrap();
    assert_eq!(sheet(&session), [1, 2]);
}

#[test]
fn refusals_in_order_keep_the_session() {
    let mut r = Random::seeded(3);
    let mut full = sheets::full(&mut r, 2);
    let before = full.clone();
    assert_eq!(full.enter(&[1]), Err(14));
    assert_eq!(full.strike(), Err(14));
    assert_eq!(full.amend(99, &[1]), Err(14));
    assert_eq!(full.redo(), Err(13));
    assert!(full == before);
    // Undone edits do not count for 14, and make room.
    full.undo().unwrap();
    let undone = full.clone();
    assert_eq!(full.amend(99, &[1]), Err(8));
    assert_eq!(full.amend(99, &[1, 1]), Err(11));
    assert_eq!(full.amend(0, &[1, 1]), Err(11));
    assert_eq!(full.amend(256 + 1, &[1, 1]), Err(11));
    assert!(full == undone, "refused edits drop nothing");

    let mut long = sheets::session_of(&[1; 128], 2);
    assert_eq!(long.enter(&[1, 1, 1]), Err(8));
    assert_eq!(long.enter(&[1, 1]), Err(9));
    long.amend(64, &[2, 2]).unwrap();

    let mut closed = Session::closed();
    assert_eq!(closed.enter(&[]), Err(17));
    assert_eq!(closed.strike(), Err(17));
    assert_eq!(closed.amend(0, &[]), Err(17));
    assert_eq!(closed.undo(), Err(17));
    assert_eq!(closed.redo(), Err(17));
    assert_eq!(closed.verdict(&[], &mut []), Err(17));
    assert!(closed == Session::closed());
}

#[test]
fn opening() {
    let mut session = sheets::session_of(&[1; 9], 3);
    session.open(&Draft::pool().store()).unwrap();
    assert!(session == opened());
    session.enter(&[1, 1]).unwrap();
    assert_eq!(session.open(&[0; 50]), Err(15));
    assert!(session == Session::closed());
}

#[test]
fn verdicts() {
    let store = Draft::pool().store();
    let mut levels = vec![-1; LEVELS + 1];
    let mut session = opened();
    session.enter(&[1, 0]).unwrap();
    session.enter(&[0, 2]).unwrap();
    assert_eq!(session.verdict(&[], &mut levels[..LEVELS - 1]), Err(10));
    assert_eq!(session.verdict(&[], &mut levels), Err(15));
    let other = Draft::new(3, &[[0, 1, 0]], &[(1, 1)]).free();
    assert_eq!(session.verdict(&other.bytes(), &mut levels), Err(16));
    assert!(levels.iter().all(|&level| level == -1));
    let (verdict, states) = (Verdict::Accepted, 3);
    let judged = session.verdict(&store, &mut levels);
    assert_eq!(judged, Ok(Judged { verdict, states }));
    assert_eq!(levels[..4], [300, 286, 280, -1]);
}

#[test]
fn faulty_sessions_are_not_sound() {
    let mut r = Random::seeded(11);
    for (label, make) in SESSION_FAULTS {
        for _ in 0..50 {
            assert!(!make(&mut r).is_sound(), "{label}");
        }
    }
}

/// Makes the session's own log into calls; the result is the session exactly
/// if it is one that calls could leave.
fn rebuilt(session: &Session) -> Option<Session> {
    let agents = usize::try_from(session.agents).ok()?;
    if !(1..=16).contains(&agents) || session.total > 200 || session.standing > session.total {
        return None;
    }
    let mut made = sheets::opened(agents);
    for edit in session.log.chunks(EDIT_BYTES).take(session.total as usize) {
        let names = &edit[2..2 + agents];
        let done = match edit[0] {
            ENTER => made.enter(names),
            STRIKE => made.strike(),
            AMEND => made.amend(edit[1].into(), names),
            _ => return None,
        };
        done.ok()?;
    }
    for _ in session.standing..session.total {
        made.undo().ok()?;
    }
    Some(made)
}

#[test]
fn sound_means_that_calls_could_leave_it() {
    let mut r = Random::seeded(12);
    let (mut sound, mut unsound) = (0, 0);
    for _ in 0..3_000 {
        let (agents, calls) = (r.from_to(1, 16), r.below(40));
        let session = sheets::session(&mut r, agents, calls);
        assert!(session.is_sound());
        assert!(rebuilt(&session).as_ref() == Some(&session));
        let mut bytes = session.to_bytes();
        let used = 1056 + EDIT_BYTES * session.total as usize;
        let place = match r.below(3) {
            0 => r.below(bytes.len()),
            1 => r.from_to(1056, used.min(bytes.len() - 1)),
            _ => *r.pick(&[0, 8, 16, 17, 1040, 1048]),
        };
        bytes[place] = if r.one_in(2) {
            r.below(4) as u8
        } else {
            r.byte()
        };
        let altered = Session::from_bytes(bytes.first_chunk().unwrap());
        assert_eq!(altered.to_bytes(), bytes);
        let possible = rebuilt(&altered).as_ref() == Some(&altered);
        assert_eq!(altered.is_sound(), possible);
        sound += possible as usize;
        unsound += !possible as usize;
    }
    assert!(sound > 100 && unsound > 100, "{sound} {unsound}");
}
