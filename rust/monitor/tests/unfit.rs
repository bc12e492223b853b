//! What does not fit gets 18 and changes nothing; the reason is the first that
//! applies of numbers, lengths and acceptance.

use monitor::layout::{HEADER_WORDS, KEY_WORDS, MOST_CALLS, MOST_FRAMES, RECORD_WORDS};
use monitor::{words, Call, Key, Ledger, List, Machine, Memory, Monitor, Rule, Unfit};

const A: Machine = Machine::BOX_A;
const KEY: Key = Key::new([1; KEY_WORDS]);

fn fresh() -> Monitor {
    Monitor::boot(A, &KEY).expect("box A fits")
}

fn length(list: List, found: usize, needed: usize) -> Unfit {
    Unfit::Length { list, found, needed }
}

/// Box A's numbers over so many words of memory and ledger.
fn boot(machine: Machine, memory: usize, ledger: usize) -> Result<(), Unfit> {
    let (memory, ledger) = (Memory::over(vec![0; memory]), Ledger::over(vec![0; ledger]));
    Monitor::boot_over(machine, memory, ledger, &KEY).map(|_| ())
}

#[test]
fn numbers_come_first() {
    for (machine, rule) in [
        (Machine { frames: MOST_FRAMES + 1, ..A }, Rule::Frames),
        (Machine { frames: u32::MAX, pages: u32::MAX, ..A }, Rule::Frames),
        (Machine { pages: u32::MAX, ..A }, Rule::Pages),
        (Machine { monitors: 0, ..A }, Rule::Monitors),
        (Machine { monitor: 7, ..A }, Rule::Apart),
    ] {
        let unfit = Unfit::Numbers(rule);
        assert_eq!(Monitor::boot(machine, &KEY), Err(unfit));
        assert_eq!(boot(machine, 0, 0), Err(unfit));
        let (memory, ledger) = fresh().into_parts();
        assert_eq!(Monitor::resume(machine, memory, ledger), Err(unfit));
    }
}

#[test]
fn lengths_of_what_is_lent() {
    let (memory, ledger) = (A.memory_words(), A.ledger_words());
    assert_eq!(boot(A, memory, ledger), Ok(()));
    for other in [0, memory - 1, memory + 1] {
        assert_eq!(boot(A, other, 0), Err(length(List::Memory, other, memory)));
    }
    for other in [0, ledger - 1, ledger + 1] {
        assert_eq!(boot(A, memory, other), Err(length(List::Ledger, other, ledger)));
    }
    let (lent, kept) = (Memory::over(vec![0; memory]), Ledger::over([0; 5]));
    let unfit = Monitor::resume(A, lent, kept).err();
    assert_eq!(unfit, Some(length(List::Ledger, 5, ledger)));
}

/// In words a key can have any length.
#[test]
fn length_of_the_key() {
    let (mut memory, mut ledger) = (vec![0; A.memory_words()], vec![0; A.ledger_words()]);
    for found in [0, KEY_WORDS - 1, KEY_WORDS + 1] {
        let key = vec![0; found];
        assert_eq!(words::boot(A, &key, &mut memory, &mut ledger), words::UNFIT);
        let unfit = Unfit::of_boot(A, &key, &memory, &ledger);
        assert_eq!(unfit, Some(length(List::Key, found, KEY_WORDS)));
    }
}

/// Boot says 18 exactly where something is named.
#[test]
fn boot_has_no_other_reason() {
    let near = [0, 1, 2, 3, u32::MAX];
    let machine = |number: usize| {
        let [frames, secure, pages, monitor, monitors] =
            [0, 1, 2, 3, 4].map(|place| near[number / near.len().pow(place) % near.len()]);
        Machine { frames, secure, pages, monitor, monitors }
    };
    let mut done = 0;
    for machine in (0..near.len().pow(5)).map(machine) {
        let (mut memory, mut ledger) = (Memory::zeros(machine), Ledger::zeros(machine));
        let named = Unfit::of_boot(machine, KEY.words(), memory.words(), ledger.words());
        let said = words::boot(machine, KEY.words(), memory.words_mut(), ledger.words_mut());
        assert_eq!(said == words::DONE, named.is_none(), "{machine:?}");
        done += usize::from(named.is_none());
    }
    assert_eq!(done, 2 + 10, "on two frames and on three");
}

/// Where numbers and lengths fit there is no other reason to be named, of any
/// service: what is left is acceptance's, and boot asks for none.
#[test]
fn nothing_is_named_where_all_fits() {
    let (mut memory, mut ledger) = (vec![9; A.memory_words()], vec![9; A.ledger_words()]);
    assert_eq!(Unfit::of_boot(A, KEY.words(), &memory, &ledger), None);
    assert_eq!(Unfit::of_accepts(A, &memory, &ledger), None);
    assert_eq!(Unfit::of_batch(A, &memory, &ledger, &[], &[]), None);
    assert!(!words::accepts(A, &memory, &ledger));
    assert_eq!(words::boot(A, KEY.words(), &mut memory, &mut ledger), words::DONE);
}

#[test]
fn lengths_of_a_batch() {
    let mut bench = fresh();
    let before = bench.clone();
    let most = MOST_CALLS * RECORD_WORDS;
    for (calls, answers, unfit) in [
        (RECORD_WORDS - 1, RECORD_WORDS - 1, length(List::Calls, RECORD_WORDS - 1, 0)),
        (RECORD_WORDS + 1, 0, length(List::Calls, RECORD_WORDS + 1, RECORD_WORDS)),
        (most + RECORD_WORDS, 0, length(List::Calls, most + RECORD_WORDS, most)),
        (RECORD_WORDS, 0, length(List::Answers, 0, RECORD_WORDS)),
        (0, RECORD_WORDS, length(List::Answers, RECORD_WORDS, 0)),
    ] {
        let mut answer = vec![7; answers];
        assert_eq!(bench.batch_words(&vec![0; calls], &mut answer), Err(unfit));
        assert!(answer.iter().all(|word| *word == 7));
    }
    let (found, needed) = (most + RECORD_WORDS, most);
    let many = bench.batch(&[Call::FreePages; MOST_CALLS + 1]);
    assert_eq!(many, Err(length(List::Calls, found, needed)));
    assert!(bench == before);
    let most = bench.batch(&[Call::FreePages; MOST_CALLS]);
    assert_eq!(most.map(|answers| answers.len()), Ok(MOST_CALLS));
}

/// Acceptance is the reason that is left; a length is said before it.
#[test]
fn acceptance_comes_last() {
    let mut bench = fresh();
    bench.ledger_mut().words_mut()[HEADER_WORDS - 1] = 1;
    assert_eq!(bench.call(Call::FreePages), Err(Unfit::Acceptance));
    assert_eq!(bench.batch(&[]), Err(Unfit::Acceptance));
    let unfit = bench.batch_words(&[0], &mut []);
    assert_eq!(unfit, Err(length(List::Calls, 1, 0)));
    let (memory, ledger) = bench.into_parts();
    let (lent, kept) = (Memory::over(memory.words()), Ledger::over(ledger.words()));
    assert_eq!(Monitor::resume(A, lent, kept).err(), Some(Unfit::Acceptance));
    // They were borrowed, so they can be asked why.
    let Machine { frames, secure, pages, monitor, monitors } = A;
    let machine = second::Machine { frames, secure, pages, monitor, monitors };
    let broken = second::why(machine, memory.words(), ledger.words()).expect("not accepted");
    assert_eq!(broken.rule, second::Rule::A4);
}

/// The ledger that versions before 0.5.0 kept of a page more, with a header of 32
/// words, is as long as box A's. No such ledger is accepted, full or free.
#[test]
fn an_older_ledger() {
    let larger = Machine { frames: 17, pages: 9, ..A };
    let spares = (2..9).map(|page| Call::AllocSpare { space: 0, page });
    let full: Vec<Call> =
        [Call::InitAddrSpace { space: 0, first: 1 }].into_iter().chain(spares).collect();
    for done in 0..=full.len() {
        let mut bench = Monitor::boot(larger, &KEY).expect("it fits");
        bench.batch(&full[..done]).expect("accepted");
        let words = bench.ledger().words();
        let older = [&words[..32], &words[HEADER_WORDS..]].concat();
        assert_eq!(older.len(), A.ledger_words());
        assert!(!words::accepts(A, &vec![0; A.memory_words()], &older), "{done}");
    }
}

#[test]
fn in_one_line_each() {
    for (unfit, line) in [
        (Unfit::Numbers(Rule::Pages), "the box's numbers: expected n from 1 to 1024 (18)"),
        (length(List::Key, 7, 8), "the key: expected 8 words, found 7 (18)"),
        (length(List::Memory, 0, 16384), "the memory: expected 16384 words, found 0 (18)"),
        (length(List::Ledger, 5, 320), "the ledger: expected 320 words, found 5 (18)"),
        (
            length(List::Calls, 33, 32),
            "the call list: expected records of 32 words, at most 512, found 33 words (18)",
        ),
        (length(List::Answers, 0, 32), "the answer list: expected 32 words, found 0 (18)"),
        (Unfit::Acceptance, "the words are not accepted (18)"),
    ] {
        assert_eq!(unfit.to_string(), line);
    }
}
