//! The largest boxes: their ledgers, their free maps, their frames.

use second::cases::KEY;
use second::layout::{record_of, RECORD_WORDS};
use second::shift::record;
use second::{accepts, batch, boot, direct, Machine};

/// A box and what it lends.
struct Lent {
    machine: Machine,
    memory: Vec<u32>,
    ledger: Vec<u32>,
}

impl Lent {
    /// Booted over ones.
    fn booted(frames: u32, secure: u32, pages: u32, monitor: u32, monitors: u32) -> Lent {
        let machine = Machine { frames, secure, pages, monitor, monitors };
        let mut memory = vec![1; 1024 * frames as usize];
        let mut ledger = vec![1; 64 + 32 * pages as usize];
        assert_eq!(boot(machine, &KEY, &mut memory, &mut ledger), 0);
        Lent { machine, memory, ledger }
    }

    /// Obeys these calls in one batch and gives the answer records.
    fn obey(&mut self, calls: &[&[u32]]) -> Vec<Vec<u32>> {
        let calls: Vec<u32> = calls.iter().flat_map(|call| record(call)).collect();
        let mut answers = vec![7; calls.len()];
        assert_eq!(
            batch(self.machine, &mut self.memory, &mut self.ledger, &calls, &mut answers),
            0
        );
        assert!(self.accepted());
        answers.chunks(RECORD_WORDS).map(<[u32]>::to_vec).collect()
    }

    fn accepted(&self) -> bool {
        let yes = accepts(self.machine, &self.memory, &self.ledger);
        assert_eq!(direct::accepts(self.machine, &self.memory, &self.ledger), yes);
        yes
    }

    /// What FreePages says: how many, and the lowest.
    fn free(&mut self) -> [u32; 2] {
        let answers = self.obey(&[&[13]]);
        [answers[0][1], answers[0][2]]
    }
}

#[test]
fn a_fresh_box_of_the_most_pages() {
    let mut lent = Lent::booted(1026, 2, 1024, 0, 2);
    assert_eq!(lent.ledger.len(), 32_832);
    assert_eq!((lent.ledger[0], &lent.ledger[1..9]), (0, &KEY[..]));
    assert!(lent.ledger[9..41].iter().all(|word| *word == u32::MAX));
    assert!(lent.ledger[41..].iter().all(|word| *word == 0));
    assert_eq!(lent.free(), [1024, 0]);
}

/// The free map from word to word, at the ends of each.
#[test]
fn the_lowest_in_every_word() {
    let mut lent = Lent::booted(1026, 2, 1024, 0, 2);
    let spares =
        |pages: std::ops::Range<u32>| -> Vec<[u32; 3]> { pages.map(|page| [5, 0, page]).collect() };
    let take = |lent: &mut Lent, pages: std::ops::Range<u32>| {
        let calls = spares(pages);
        let calls: Vec<&[u32]> = calls.iter().map(|call| &call[..]).collect();
        assert!(lent.obey(&calls).iter().all(|answer| answer[0] == 0));
    };
    lent.obey(&[&[2, 0, 1]]);
    take(&mut lent, 2..32);
    for word in 1..32 {
        assert_eq!(lent.ledger[9 + word as usize - 1], 0);
        assert_eq!(lent.free(), [1024 - 32 * word, 32 * word]);
        take(&mut lent, 32 * word..32 * word + 31);
        assert_eq!(lent.ledger[9 + word as usize], 1 << 31);
        assert_eq!(lent.free(), [1024 - 32 * word - 31, 32 * word + 31]);
        take(&mut lent, 32 * word + 31..32 * word + 32);
    }
    assert_eq!(lent.free(), [0, 1024]);
    assert_eq!(lent.ledger[record_of(0)][4], 1023);
    lent.obey(&[&[12, 1023]]);
    assert_eq!(lent.free(), [1, 1023]);
    assert_eq!(lent.ledger[9..41], [&[0; 31][..], &[1 << 31]].concat());
}

#[test]
fn numbers_at_the_limits() {
    let fits = |frames, pages| Machine { frames, secure: 1, pages, monitor: 0, monitors: 1 }.fits();
    assert!(fits(16_384, 1024) && fits(16_384, 1) && fits(1025, 1024));
    assert!(!fits(16_385, 1024) && !fits(16_385, 1) && !fits(16_384, 1025));
}

/// Frames keep their place in a slot's word, to the last.
#[test]
fn the_last_frame() {
    let mut lent = Lent::booted(16_384, 2, 8, 0, 2);
    let calls: [&[u32]; 4] =
        [&[2, 0, 1], &[4, 0, 2, 0], &[7, 0, 4097, 16_383], &[7, 0, 8193, 16_384]];
    let codes: Vec<u32> = lent.obey(&calls).iter().map(|answer| answer[0]).collect();
    assert_eq!(codes, [0, 0, 0, 9]);
    assert_eq!(lent.memory[lent.machine.words_of(2)][1], 67_104_769);
}

/// A ledger of n+1 pages whose header has 32 words is as long as one of n.
#[test]
fn an_old_ledger_of_one_page_more() {
    for pages in 2..=256 {
        let lent = Lent::booted(pages + 1, 1, pages, 0, 1);
        let ledger = [&lent.ledger[..17], &[0; 15], &lent.ledger[64..]].concat();
        let machine = Machine { pages: pages - 1, ..lent.machine };
        assert_eq!(ledger.len(), machine.ledger_words());
        assert!(!accepts(machine, &lent.memory, &ledger), "{pages}");
        assert!(!direct::accepts(machine, &lent.memory, &ledger), "{pages}");
        assert!(!accepts(lent.machine, &lent.memory, &ledger), "{pages}");
    }
}
