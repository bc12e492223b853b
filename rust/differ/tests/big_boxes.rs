//! The largest boxes, by the proved library and by the second program.

use differ::services::{Proved, Second, Services};
use second::cases::KEY;
use second::layout::RECORD_WORDS;
use second::shift::record;
use second::{Machine, DONE, UNFIT};

/// By whom: both programs.
const SIDES: [&dyn Services; 2] = [&Proved, &Second];

const fn machine(frames: u32, secure: u32, pages: u32, monitor: u32, monitors: u32) -> Machine {
    Machine { frames, secure, pages, monitor, monitors }
}

/// A box and what it lends.
struct Lent<'s> {
    by: &'s dyn Services,
    machine: Machine,
    memory: Vec<u32>,
    ledger: Vec<u32>,
}

impl<'s> Lent<'s> {
    /// Lists as long as the numbers ask, with the answer of Boot.
    fn booted(by: &'s dyn Services, machine: Machine) -> (u32, Lent<'s>) {
        let memory = vec![1; 1024 * machine.frames as usize];
        let ledger = vec![1; 64 + 32 * machine.pages as usize];
        let mut lent = Lent { by, machine, memory, ledger };
        (by.boot(machine, &KEY, &mut lent.memory, &mut lent.ledger), lent)
    }

    fn accepted(&self) -> bool {
        self.by.accepts(self.machine, &self.memory, &self.ledger)
    }

    /// The answer records of these calls, in one batch.
    fn obey(&mut self, calls: &[Vec<u32>]) -> Vec<Vec<u32>> {
        let calls: Vec<u32> = calls.iter().flat_map(|call| record(call)).collect();
        let mut answers = vec![7; calls.len()];
        let Lent { by, machine, memory, ledger } = self;
        assert_eq!(by.batch(*machine, memory, ledger, &calls, &mut answers), DONE);
        answers.chunks(RECORD_WORDS).map(<[u32]>::to_vec).collect()
    }

    /// What FreePages says.
    fn free(&mut self) -> Vec<u32> {
        self.obey(&[vec![13]])[0][..3].to_vec()
    }
}

#[test]
fn a_fresh_box_of_the_most_pages() {
    for by in SIDES {
        let (code, mut lent) = Lent::booted(by, machine(1026, 2, 1024, 0, 2));
        assert_eq!((code, lent.ledger.len()), (DONE, 32_832));
        assert!(lent.ledger[9..41].iter().all(|word| *word == u32::MAX));
        assert!(lent.ledger[41..].iter().all(|word| *word == 0));
        assert!(lent.accepted());
        assert_eq!(lent.free(), [0, 1024, 0]);
    }
}

/// All pages taken but one, which stands in each word of the map in turn.
#[test]
fn the_lowest_in_every_word() {
    for by in SIDES {
        let (_, mut lent) = Lent::booted(by, machine(1026, 2, 1024, 0, 2));
        let spare = |page| vec![5, 0, page];
        lent.obey(&[vec![2, 0, 1]]);
        for pages in [2..512, 512..1024] {
            let answers = lent.obey(&pages.map(spare).collect::<Vec<_>>());
            assert!(answers.iter().all(|answer| answer[0] == DONE));
        }
        assert_eq!(lent.free(), [0, 0, 1024]);
        for page in (0..32).flat_map(|word| [32 * word + 2, 32 * word + 31]) {
            let answers = lent.obey(&[vec![12, page], vec![13], spare(page)]);
            assert_eq!(answers[1][..3], [0, 1, page]);
        }
        assert!(lent.accepted());
    }
}

#[test]
fn numbers_at_the_limits() {
    for by in SIDES {
        let code = |machine| Lent::booted(by, machine).0;
        assert_eq!(code(machine(16_385, 1, 8, 0, 1)), UNFIT);
        assert_eq!(code(machine(1027, 1, 1025, 0, 1)), UNFIT);
        assert_eq!(code(machine(16_384, 1, 1024, 0, 1)), DONE);
    }
}

#[test]
fn the_last_frame() {
    for by in SIDES {
        let (_, mut lent) = Lent::booted(by, machine(16_384, 2, 8, 0, 2));
        let maps = [vec![7, 0, 4097, 16_383], vec![7, 0, 8193, 16_384]];
        let answers = lent.obey(&[&[vec![2, 0, 1], vec![4, 0, 2, 0]][..], &maps].concat());
        let codes: Vec<u32> = answers.iter().map(|answer| answer[0]).collect();
        assert_eq!(codes, [0, 0, 0, 9]);
        assert_eq!(lent.memory[lent.machine.words_of(2)][1], 67_104_769);
    }
}
