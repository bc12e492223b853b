//! The library's records in types.

use monitor::layout::RECORD_WORDS;
use monitor::{words, Answer, Call, Machine, Refusal};
use second::random::{next_call, Rng, View};

const SHIFT: Machine = Machine { frames: 30, secure: 7, pages: 14, monitor: 25, monitors: 2 };

/// Every record that a long shift meets has its typed form.
#[test]
fn a_shift_in_types() {
    let Machine { frames, secure, pages, monitor, monitors } = SHIFT;
    let machine = second::Machine { frames, secure, pages, monitor, monitors };
    let mut rng = Rng::new(5);
    let (mut memory, mut ledger) = second::random::fresh(&mut rng, machine);
    for _ in 0..3_000 {
        let call = next_call(&mut rng, View { machine, memory: &memory, ledger: &ledger });
        let mut answer = [0; RECORD_WORDS];
        assert_eq!(words::batch(SHIFT, &mut memory, &mut ledger, &call, &mut answer), words::DONE);
        match Call::decode(&call) {
            Some(typed) => {
                let read = Answer::decode(&typed, &answer).expect("an answer of the call's row");
                assert_eq!((typed.encode(), read.encode()), (call, answer));
            }
            None => assert_eq!(answer[0], Refusal::BadRecord.code()),
        }
        let pages = monitor::Ledger::over(&ledger[..]);
        assert!(pages.pages().all(|page| page.is_some()));
    }
}
