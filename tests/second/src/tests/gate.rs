//! The gate exchange: both ends, and the chain address.

use crate::gate::{self, Answer, Asking, Reply, Responder};

#[test]
fn asking_end() {
    let (asking, answer) = gate::start(gate::fresh(), 50);
    assert_eq!(answer, Answer::Send { id: 0, repeat: 0 });
    assert_eq!(gate::start(asking, 60), (asking, Answer::Refused(14)));
    assert_eq!(gate::tick(asking, 149), (asking, Answer::Nothing));
    assert_eq!(gate::arrival(asking, 1, 1, 60), (asking, Answer::Nothing));
    assert_eq!(gate::arrival(asking, 0, 0, 60), (asking, Answer::Nothing));
    let (asking, answer) = gate::tick(asking, 150);
    assert_eq!(answer, Answer::Send { id: 0, repeat: 1 });
    assert_eq!(asking.sent, 150);
    let (asking, answer) = gate::arrival(asking, 2, 0, 151);
    assert_eq!(answer, Answer::Send { id: 0, repeat: 2 });
    // A clock set back ends the wait early.
    let (asking, answer) = gate::tick(asking, 150);
    assert_eq!(answer, Answer::Send { id: 0, repeat: 3 });
    let (asking, answer) = gate::arrival(asking, 2, 0, 151);
    assert_eq!(answer, Answer::GivenUp);
    assert_eq!(asking, Asking { mode: 0, id: 0, repeat: 3, sent: 150 });
    assert_eq!(gate::arrival(asking, 1, 0, 152), (asking, Answer::Nothing));
    assert_eq!(gate::tick(asking, 1 << 31), (asking, Answer::Nothing));
    let (asking, answer) = gate::start(asking, u32::MAX - 10);
    assert_eq!(answer, Answer::Send { id: 1, repeat: 0 });
    assert_eq!(gate::tick(asking, 88), (asking, Answer::Nothing));
    assert_eq!(gate::tick(asking, 89).1, Answer::Send { id: 1, repeat: 1 });
    let (mut asking, answer) = gate::arrival(asking, 1, 1, 0);
    assert_eq!(answer, Answer::Done);
    assert_eq!(asking, Asking { mode: 0, id: 1, repeat: 0, sent: u32::MAX - 10 });
    for id in (2..=255).chain(0..=1) {
        let (waiting, answer) = gate::start(asking, 0);
        assert_eq!(answer, Answer::Send { id, repeat: 0 });
        asking = gate::arrival(waiting, 1, id, 0).0;
    }
    for odd in [Asking { mode: 2, ..asking }, Asking { repeat: 4, ..asking }, Asking { mode: 1, repeat: 4, ..asking }] {
        assert_eq!(gate::start(odd, 0), (odd, Answer::Refused(12)));
        assert_eq!(gate::tick(odd, 0), (odd, Answer::Refused(12)));
        assert_eq!(gate::arrival(odd, 1, 0, 0), (odd, Answer::Refused(12)));
    }
}

#[test]
fn responding_end_and_chain() {
    let fresh = Responder::default();
    let acknowledged = |id, address| Some(Reply { id, kind: 1, repeat: 0, address });
    // A first request with repeat 1 and id 0 is handed out: nothing was before.
    let (state, reply, handed) = gate::accepted(fresh, false, 0, 0, 1, 9);
    assert_eq!((reply, handed), (acknowledged(0, 0), true));
    let (state, reply, handed) = gate::accepted(state, true, 0, 0, 1, 9);
    assert_eq!((reply, handed), (acknowledged(0, 9), false));
    let (state, _, handed) = gate::accepted(state, true, 0, 0, 0, 9);
    assert!(handed);
    let (state, _, handed) = gate::accepted(state, true, 1, 0, 3, 9);
    assert!(handed);
    let (state, _, handed) = gate::accepted(state, true, 0, 0, 3, 9);
    assert!(handed);
    assert_eq!(gate::accepted(state, true, 7, 1, 0, 9), (state, None, false));
    let check_error = |address| (state, Some(Reply { id: 5, kind: 2, repeat: 0, address }), false);
    assert_eq!(gate::refused(state, false, 8, &[5, 9, 9, 7]), check_error(0));
    assert_eq!(gate::refused(state, true, 8, &[5, 9, 9, 7]), check_error(7));
    assert_eq!(gate::refused(state, true, 9, &[5, 9, 9, 7]), (state, None, false));
    for length in 0..4 {
        assert_eq!(gate::refused(state, true, 8, &[5, 9, 9, 7][..length]), (state, None, false));
    }
    assert_eq!(gate::quiet(state), (state, None, false));

    assert_eq!(gate::down(0), Err(15));
    assert_eq!(gate::down(1), Ok(0));
    assert!(gate::here(0) && !gate::here(1));
    assert_eq!(gate::up(254), Ok(255));
    assert_eq!(gate::up(255), Err(15));
}
