//! Long random shifts: acceptance is kept, refusals change nothing, batches
//! may be cut anywhere, and every answer the rules allow comes up.

use second::calls::{number, Code};
use second::layout::{
    Record, FRAME_WORDS, KEY_START, MAP_START, MOST_CALLS, RECORD_WORDS, RUNNING,
};
use second::random::{
    fresh, largest_machines, limit_machines, next_call, outsider, random_machine, Coverage, Rng,
    View,
};
use second::{accepts, batch, direct, Machine, DONE};

/// A machine and what it lends.
struct Lent {
    machine: Machine,
    memory: Vec<u32>,
    ledger: Vec<u32>,
}

impl Lent {
    fn fresh(rng: &mut Rng, machine: Machine) -> Lent {
        let (memory, ledger) = fresh(rng, machine);
        Lent { machine, memory, ledger }
    }

    fn copy(&self) -> Lent {
        let (memory, ledger) = (self.memory.clone(), self.ledger.clone());
        Lent { machine: self.machine, memory, ledger }
    }

    fn draw(&self, rng: &mut Rng) -> Record {
        let (machine, memory, ledger) = (self.machine, &self.memory, &self.ledger);
        next_call(rng, View { machine, memory, ledger })
    }

    fn obey(&mut self, calls: &[u32]) -> Vec<u32> {
        let mut answers = vec![0x5555_5555; calls.len()];
        let code = batch(self.machine, &mut self.memory, &mut self.ledger, calls, &mut answers);
        assert_eq!(code, 0);
        answers
    }

    fn accepted(&self) -> bool {
        let yes = accepts(self.machine, &self.memory, &self.ledger);
        assert_eq!(direct::accepts(self.machine, &self.memory, &self.ledger), yes);
        yes
    }
}

/// What every answer must keep, whatever the call.
fn check_answer(before: &Lent, after: &Lent, call: &[u32], answer: &[u32]) {
    if answer[0] != DONE {
        assert_eq!(answer[1..], [0; RECORD_WORDS - 1], "a number, then zeros: call {call:?}");
        assert!(before.memory == after.memory, "call {call:?} gave {}", answer[0]);
    }
    const INTERRUPTED: u32 = Code::Interrupted as u32;
    const FAULTED: u32 = Code::Faulted as u32;
    match answer[0] {
        DONE => {}
        INTERRUPTED => assert_eq!(after.ledger[RUNNING], 0),
        FAULTED => {
            assert_eq!(after.ledger[RUNNING], 0);
            assert_eq!(before.ledger[1..], after.ledger[1..]);
        }
        _ => assert!(before.ledger == after.ledger, "call {call:?} gave {}", answer[0]),
    }
}

/// No call writes the key, a monitor frame or, but for Store, any frame that
/// is not secure.
fn check_frames(before: &Lent, after: &Lent, call: &[u32]) {
    assert_eq!(before.ledger[KEY_START..MAP_START], after.ledger[KEY_START..MAP_START]);
    let machine = before.machine;
    for frame in (0..machine.frames).filter(|frame| machine.page_in(*frame).is_none()) {
        let words = frame as usize * FRAME_WORDS..(frame as usize + 1) * FRAME_WORDS;
        let stored = call[0] == number::STORE && machine.is_insecure(frame);
        assert!(stored || before.memory[words.clone()] == after.memory[words]);
    }
}

/// One shift of single calls with an outsider between them.
fn shift(rng: &mut Rng, machine: Machine, calls: usize, coverage: &mut Coverage) {
    let mut now = Lent::fresh(rng, machine);
    assert!(now.accepted());
    for _ in 0..calls {
        outsider(rng, machine, &mut now.memory);
        let call = now.draw(rng);
        let before = now.copy();
        let answer = now.obey(&call);
        check_answer(&before, &now, &call, &answer);
        check_frames(&before, &now, &call);
        assert!(now.accepted(), "call {call:?} gave {}", answer[0]);
        coverage.note(&call, &answer);
    }
}

#[test]
fn every_allowed_answer_comes_up() {
    let seed = 20260101;
    println!("seed {seed}");
    let (mut rng, mut coverage) = (Rng::new(seed), Coverage::default());
    for _ in 0..60 {
        let machine = random_machine(&mut rng);
        let calls = if machine.frames > 100 { 60 } else { 1200 };
        shift(&mut rng, machine, calls, &mut coverage);
    }
    println!("{coverage}");
    assert_eq!(coverage.missing(), []);
    assert_eq!(coverage.strange(), []);
}

#[test]
fn boxes_at_the_limits() {
    let (mut rng, mut coverage) = (Rng::new(7), Coverage::default());
    for machine in limit_machines() {
        let calls = 400_000 / machine.frames as usize;
        shift(&mut rng, machine, calls.clamp(100, 3000), &mut coverage);
    }
    for machine in largest_machines() {
        shift(&mut rng, machine, 20, &mut coverage);
    }
    assert_eq!(coverage.strange(), []);
}

/// A list drawn call by call on a copy, then obeyed at once and in parts.
#[test]
fn a_batch_may_be_cut_anywhere() {
    let mut rng = Rng::new(11);
    for round in 0..40 {
        let machine = random_machine(&mut rng);
        let mut single = Lent::fresh(&mut rng, machine);
        for _ in 0..6 {
            let (mut whole, mut parts) = (single.copy(), single.copy());
            let length = if round == 0 { MOST_CALLS as u32 } else { rng.below(60) };
            let (mut calls, mut answers) = (Vec::new(), Vec::new());
            for _ in 0..length {
                let call = single.draw(&mut rng);
                answers.extend(single.obey(&call));
                calls.extend(call);
            }
            let cut = RECORD_WORDS * rng.below(length + 1) as usize;
            assert!(whole.obey(&calls) == answers);
            assert!([parts.obey(&calls[..cut]), parts.obey(&calls[cut..])].concat() == answers);
            assert!(whole.memory == single.memory && whole.ledger == single.ledger);
            assert!(parts.memory == single.memory && parts.ledger == single.ledger);
        }
    }
}

#[test]
fn an_empty_batch_changes_nothing() {
    let mut rng = Rng::new(12);
    for _ in 0..20 {
        let machine = random_machine(&mut rng);
        let mut now = Lent::fresh(&mut rng, machine);
        for _ in 0..30 {
            let call = now.draw(&mut rng);
            now.obey(&call);
            let before = now.copy();
            assert_eq!(now.obey(&[]), []);
            assert!(before.memory == now.memory && before.ledger == now.ledger);
        }
    }
}

/// Both values of Verify and both ends of a run come up in one short shift.
#[test]
fn verify_says_yes_and_no() {
    let mut rng = Rng::new(13);
    let machine = Machine { frames: 40, secure: 3, pages: 20, monitor: 30, monitors: 2 };
    let mut now = Lent::fresh(&mut rng, machine);
    let mut seen = [0; 2];
    for _ in 0..20_000 {
        let call = now.draw(&mut rng);
        let answer = now.obey(&call);
        if call[0] == number::VERIFY && answer[0] == DONE {
            seen[answer[1] as usize] += 1;
        }
    }
    assert!(seen[0] > 10 && seen[1] > 10, "{seen:?}");
}
