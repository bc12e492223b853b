//! What is printed for debugging of a key, a memory, a ledger, a monitor and an
//! image on its way: no word of the key, none of the memory, and no register that a
//! suspended thread left in the ledger; whatever the words are, and wherever they
//! were lent from. A call, an answer and a page that are printed by themselves show
//! all their words: registers of a thread and loaded words too.

use monitor::layout::record_of;
use monitor::{
    Answer, Call, Key, Ledger, Machine, Mapping, Memory, Monitor, Page, Registers, Restore, Thread,
};
use std::fmt::Debug;

const KEY: [u32; 8] = [
    3735928559, 3405691582, 2863311530, 1431655765, 4027448014, 3203386110, 2596069104, 1985229328,
];
/// A word in an enclave's page, and one in its saved registers.
const SECRETS: [u32; 2] = [2779096485, 3031741620];

/// A box with a suspended thread, whose enclave keeps the secrets.
fn bench() -> Monitor {
    let mut bench = Monitor::boot(Machine::BOX_A, &Key::new(KEY)).expect("box A fits");
    bench.memory_mut().frame_mut(5).expect("a frame").fill(SECRETS[0]);
    let map = Mapping::at(4096).expect("a page");
    let registers = Registers { r: [SECRETS[1]; 16], flags: 0 };
    let calls = [
        Call::InitAddrSpace { space: 0, first: 1 },
        Call::InitTable { space: 0, page: 2, index: 0 },
        Call::MapSecure { space: 0, page: 3, map, frame: 5 },
        Call::InitThread { space: 0, page: 4, entry: 4096 },
        Call::Finalise { space: 0 },
        Call::Enter { thread: 4, x: 0, y: 0, z: 0 },
        Call::Interrupt { registers },
    ];
    let answers = bench.batch(&calls).expect("accepted");
    assert_eq!(answers.last(), Some(&Answer::Interrupted));
    bench
}

/// Nothing of it stands in what is printed, in any base or letters; nor one less,
/// as of the header's word 0.
fn keeps_back(shown: &dyn Debug) {
    let texts = [format!("{shown:?}"), format!("{shown:#?}"), format!("{shown:x?}")];
    for text in texts.map(|text| text.to_lowercase()) {
        let secrets = KEY.into_iter().chain(SECRETS);
        for word in secrets.flat_map(|word| [word, word - 1]) {
            assert!(!text.contains(&word.to_string()), "{text}");
            assert!(!text.contains(&format!("{word:x}")), "{text}");
        }
    }
}

#[test]
fn nothing_is_given_away() {
    let mut bench = bench();
    assert_eq!(bench.ledger().key(), Key::new(KEY));
    keeps_back(&bench);
    keeps_back(bench.ledger());
    keeps_back(bench.memory());
    keeps_back(&bench.ledger().key());
    keeps_back(&Ledger::over(bench.ledger().words()));
    keeps_back(&Ledger::over(bench.ledger_mut().words_mut()));
    keeps_back(&bench.image(7).expect("it fits"));
    let machine = bench.machine();
    let spare = Restore::over(machine, Memory::zeros(machine), Ledger::zeros(machine));
    let mut restore = spare.expect("it fits");
    assert!(bench.image(7).expect("it fits").all(|block| restore.take(&block).is_ok()));
    keeps_back(&restore);
    keeps_back(&bench.into_parts());
}

/// A ledger that is out of order is printed with as little.
#[test]
fn whatever_the_words_are() {
    for words in [0, 1, 9, 63, 64, 95, 96, 320] {
        let mut ledger = vec![u32::MAX; words];
        ledger.iter_mut().skip(1).zip(KEY).for_each(|(word, key)| *word = key);
        keeps_back(&Ledger::over(ledger));
    }
}

/// A ledger that is lent some words late, or early with the key before it.
#[test]
fn wherever_the_words_stand() {
    let bench = bench();
    let ledger = bench.ledger().words();
    let before = [&KEY, ledger].concat();
    for words in [ledger, &before] {
        for late in 0..words.len() {
            keeps_back(&Ledger::over(&words[late..]));
        }
    }
    // A word of the key that could be a page's number is none of a thread.
    let mut small = ledger.to_vec();
    small[1..9].copy_from_slice(&[1, 2, 3, 4, 5, 6, 7, 8]);
    for late in 1..9 {
        let shown = format!("{:?}", Ledger::over(&small[late..]));
        assert!(shown.starts_with("Ledger { pages: 7, running: out of order, "), "{shown}");
    }
}

#[test]
fn the_running_page_is_shown_where_it_is_a_thread() {
    let mut ledger = monitor::Ledger::zeros(Machine::BOX_A);
    let registers = Registers::default();
    let thread = Page::Thread(Thread { owner: 1, entry: 0, suspended: false, registers });
    for page in [0, 7] {
        ledger.words_mut()[record_of(page)].copy_from_slice(&thread.encode());
    }
    let odd = "out of order";
    for (word, shown) in [(0, "None"), (1, "Some(0)"), (2, odd), (8, "Some(7)"), (9, odd)] {
        ledger.words_mut()[0] = word;
        let shown = format!("Ledger {{ pages: 8, running: {shown}, key: Key(not shown), ");
        assert!(format!("{ledger:?}").starts_with(&shown), "{ledger:?}");
    }
}

/// What shows its words: it is said where it is declared.
#[test]
fn answers_and_calls_show_theirs() {
    let registers = Registers { r: [SECRETS[1]; 16], flags: 0 };
    for shown in [
        format!("{:?}", Answer::Runs(registers)),
        format!("{:?}", Call::Interrupt { registers }),
        format!("{:?}", bench().ledger().page(4)),
        format!("{:?}", Answer::Loaded(SECRETS[1])),
    ] {
        assert!(shown.contains(&SECRETS[1].to_string()), "{shown}");
    }
}

#[test]
fn what_is_shown() {
    let types = r#"{"free": 3, "space": 1, "thread": 1, "first table": 1, "table": 1, "data": 1}"#;
    let ledger =
        format!("Ledger {{ pages: 8, running: None, key: Key(not shown), types: {types} }}");
    let memory = "Memory { words: 16384 }";
    let machine = format!("{:?}", Machine::BOX_A);
    let monitor = format!("Monitor {{ machine: {machine}, memory: {memory}, ledger: {ledger} }}");
    assert_eq!(format!("{:?}", bench()), monitor);
}
