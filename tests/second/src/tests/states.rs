//! Odd states, short stores, and data that does not lie in the store.

use super::FILL;
use crate::dle::Dle;
use crate::expansion::Expansion;
use crate::mdu::{self, Mdu};
use crate::pcs::Pcs;
use crate::stream::{self, Event, Link, Received, State};

/// 12 with every piece and store, 1 only after it; nothing used or changed.
fn odd_state<L: Link>(state: State) {
    for piece in [&[][..], &[0xE3, 0xFD, 0x10][..]] {
        for length in [0, L::SIZE - 1, L::SIZE, L::SIZE + 1] {
            let mut store = vec![FILL; length];
            let received = stream::receive::<L>(piece, state, &mut store);
            assert_eq!(received, Received { used: 0, state, event: Event::Refused(12) });
            assert!(store.iter().all(|byte| *byte == FILL));
        }
    }
}

fn common_odd_states<L: Link>(known: u64, hunting: u64) {
    let size = L::SIZE as u64;
    odd_state::<L>(State { mode: known, ..State::default() });
    odd_state::<L>(State { mode: u64::MAX, ..State::default() });
    for mode in 0..known {
        odd_state::<L>(State { mode, count: size + 1, length: 1025, ..State::default() });
        odd_state::<L>(State { mode, count: u64::MAX, length: 1025, ..State::default() });
    }
    for mode in 0..hunting {
        odd_state::<L>(State { mode, count: 1, ..State::default() });
        // What stands in open, noise and (nothing gathered) length never gives 12.
        let state = State { mode, count: 0, length: u64::MAX, open: 9, noise: 9 };
        let mut short = vec![FILL; L::SIZE - 1];
        let received = stream::receive::<L>(&[], state, &mut short);
        assert_eq!(received, Received { used: 0, state, event: Event::Refused(1) });
        let mut store = vec![FILL; L::SIZE];
        let received = stream::receive::<L>(&[], state, &mut store);
        assert_eq!(received, Received { used: 0, state, event: Event::Nothing });
    }
}

#[test]
fn odd_states_and_short_stores() {
    common_odd_states::<Pcs>(2, 1);
    common_odd_states::<Mdu>(2, 1);
    common_odd_states::<Dle>(4, 2);
    common_odd_states::<Expansion>(3, 1);
    let open = |count, length| State { mode: 1, count, length, open: 0, noise: 0 };
    odd_state::<Mdu>(open(0, 0));
    odd_state::<Mdu>(open(6, 0));
    odd_state::<Mdu>(open(6, 1026));
    odd_state::<Mdu>(open(9, 1));
    odd_state::<Mdu>(open(1033, 1025));
    assert!(!Mdu::odd(open(8, 1)));
    assert!(!Mdu::odd(open(1032, 1025)));
    assert!(!Mdu::odd(open(5, 7777)));
    assert!(!Pcs::odd(open(1183, 0)));
    odd_state::<Pcs>(open(1184, 0));
    assert!(!Pcs::odd(open(0, 0)));
}

#[test]
fn data_outside_the_store_is_empty() {
    let store = [1u8; 10];
    assert_eq!(stream::data::<Mdu>(&store, &mdu::Message { address: 1, length: 4 }).len(), 4);
    assert_eq!(stream::data::<Mdu>(&store, &mdu::Message { address: 1, length: 5 }).len(), 0);
    assert_eq!(stream::data::<Mdu>(&store, &mdu::Message { address: 1, length: usize::MAX }).len(), 0);
    assert_eq!(stream::data::<Mdu>(&store[..3], &mdu::Message { address: 1, length: 0 }).len(), 0);
}
