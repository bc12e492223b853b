//! The forms that need no allocator: built and run with the feature `alloc` and
//! without.

use monitor::layout::{FRAME_WORDS, HEADER_WORDS, RECORD_WORDS};
use monitor::{
    Answer, Call, Key, Ledger, List, Machine, Mapping, Memory, Monitor, Record, Refusal, Unfit,
};
use std::sync::Mutex;

const KEY: Key = Key::new([1, 2, 3, 4, 5, 6, 7, 8]);
static MEMORY: [u32; 16 * FRAME_WORDS] = [5; 16 * FRAME_WORDS];
static LEDGER: [u32; HEADER_WORDS + 8 * RECORD_WORDS] = [5; HEADER_WORDS + 8 * RECORD_WORDS];

/// Builds an enclave on a fresh box, and runs it.
fn shift<M: AsMut<[u32]>, L: AsMut<[u32]>>(memory: M, ledger: L) -> Monitor<M, L> {
    let (memory, ledger) = (Memory::over(memory), Ledger::over(ledger));
    let mut bench = Monitor::boot_over(Machine::BOX_A, memory, ledger, &KEY).expect("box A fits");
    let map = Mapping::at(4096).expect("a page").writable();
    let answers = bench.batch_of([
        Call::InitAddrSpace { space: 0, first: 0 },
        Call::InitAddrSpace { space: 0, first: 1 },
        Call::InitTable { space: 0, page: 2, index: 0 },
        Call::MapSecure { space: 0, page: 3, map, frame: 5 },
        Call::InitThread { space: 0, page: 4, entry: 4096 },
        Call::Finalise { space: 0 },
    ]);
    let [refused, done @ ..] = answers.expect("accepted");
    assert_eq!(refused, Answer::Refused(Refusal::NotFree));
    assert_eq!(done, [Answer::Done; 5]);
    let Ok(Answer::Runs(registers)) = bench.call(Call::Enter { thread: 4, x: 1, y: 2, z: 3 })
    else {
        panic!("the thread is ready")
    };
    assert_eq!((registers.r[0], registers.r[15]), (1, 4096));
    assert_eq!(bench.call(Call::Load { address: 4096 }), Ok(Answer::Loaded(5)));
    assert_eq!(bench.batch_of([]), Ok([]));
    bench
}

#[test]
fn over_arrays() {
    let bench = shift(MEMORY, LEDGER);
    assert!(bench.accepted());
    assert_eq!((bench.ledger().running(), bench.ledger().key()), (Some(4), KEY));
    let (memory, ledger) = bench.into_parts();
    assert!(Monitor::resume(Machine::BOX_A, memory, ledger).is_ok());
}

#[test]
fn over_borrowed_words() {
    let (mut memory, mut ledger) = (MEMORY, LEDGER);
    shift(&mut memory[..], &mut ledger[..]);
    let (lent, kept) = (Memory::over(&memory[..]), Ledger::over(&ledger[..]));
    assert!(Monitor::resume(Machine::BOX_A, lent, kept).is_ok_and(|bench| bench.accepted()));
}

/// One call over words that are borrowed for it alone.
fn trap(memory: &mut [u32], ledger: &mut [u32], call: Call) -> Result<Answer, Unfit> {
    Monitor::over(Machine::BOX_A, Memory::over(memory), Ledger::over(ledger)).call(call)
}

#[test]
fn borrowed_for_one_service() {
    let (mut memory, mut ledger) = (MEMORY, LEDGER);
    assert_eq!(trap(&mut memory, &mut ledger, Call::FreePages), Err(Unfit::Acceptance));
    assert!(memory == MEMORY && ledger == LEDGER);
    shift(&mut memory[..], &mut ledger[..]);
    assert_eq!(trap(&mut memory, &mut ledger, Call::Exit { value: 3 }), Ok(Answer::Exited(3)));
    let free = Answer::Free { count: 3, lowest: 5 };
    assert_eq!(trap(&mut memory, &mut ledger, Call::FreePages), Ok(free));
    let (found, needed) = (ledger.len() - 1, ledger.len());
    let unfit = Unfit::Length { list: List::Ledger, found, needed };
    assert_eq!(trap(&mut memory, &mut ledger[1..], Call::FreePages), Err(unfit));
}

/// A monitor that stands in a static, before anything has run.
#[test]
fn in_a_static() {
    static BENCH: Mutex<Monitor<[u32; MEMORY.len()], [u32; LEDGER.len()]>> =
        Mutex::new(Monitor::over(Machine::BOX_A, Memory::over(MEMORY), Ledger::over(LEDGER)));
    let mut bench = BENCH.lock().expect("one user");
    assert_eq!(bench.call(Call::FreePages), Err(Unfit::Acceptance));
    assert_eq!((bench.machine(), bench.memory().words()), (Machine::BOX_A, &MEMORY[..]));
}

/// What the words about the stack of `batch_of` rest on.
#[test]
fn bytes_of_a_call() {
    let sizes = [size_of::<Call>(), size_of::<Record>(), size_of::<Record>(), size_of::<Answer>()];
    assert_eq!(sizes.iter().sum::<usize>(), 428);
}

/// A batch of records, into lent answers.
#[test]
fn in_words() {
    let mut bench = shift(MEMORY, LEDGER);
    let calls = [Call::Store { address: 4100, word: 77 }, Call::Load { address: 4100 }];
    let records = calls.map(|call| call.encode());
    let mut answers = [[9; RECORD_WORDS]; 2];
    let done = bench.batch_words(records.as_flattened(), answers.as_flattened_mut());
    assert_eq!(done, Ok(()));
    let read = [0, 1].map(|place| Answer::decode(&calls[place], &answers[place]));
    assert_eq!(read, [Some(Answer::Done), Some(Answer::Loaded(77))]);
    assert_eq!(read[1].map(|answer| answer.values()[0]), Some(77));
}
