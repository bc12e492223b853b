//! One space that owns every other page of the largest box, and its taking
//! down in an order drawn by chance.

use second::layout::{
    record_of, word, DATA_BLOCKS, MOST_CALLS, MOST_PAGES, MOST_TABLES, RECORD_WORDS,
};
use second::mapping::Mapping;
use second::random::{fresh, Rng};
use second::shift::record;
use second::{accepts, batch, direct, Machine};

const LARGEST: Machine =
    Machine { frames: MOST_PAGES + 44, secure: 20, pages: MOST_PAGES, monitor: 0, monitors: 4 };
const LAST: u32 = MOST_PAGES - 1;
/// The highest index of a table.
const HIGHEST: u32 = MOST_TABLES as u32 - 1;

struct Lent {
    memory: Vec<u32>,
    ledger: Vec<u32>,
}

impl Lent {
    /// Obeys these rows in one batch and gives the answer records.
    fn obey(&mut self, rows: &[Vec<u32>]) -> Vec<Vec<u32>> {
        let calls: Vec<u32> = rows.iter().flat_map(|row| record(row)).collect();
        let mut answers = vec![7; calls.len()];
        assert_eq!(batch(LARGEST, &mut self.memory, &mut self.ledger, &calls, &mut answers), 0);
        assert!(accepts(LARGEST, &self.memory, &self.ledger));
        assert!(direct::accepts(LARGEST, &self.memory, &self.ledger));
        answers.chunks(RECORD_WORDS).map(<[u32]>::to_vec).collect()
    }

    fn all_done(&mut self, rows: &[Vec<u32>]) {
        for part in rows.chunks(MOST_CALLS) {
            assert!(self.obey(part).iter().all(|answer| answer[0] == 0));
        }
    }

    /// A word of space 0.
    fn space(&self, word: usize) -> u32 {
        self.ledger[record_of(0)][word]
    }
}

/// Space 0 with first-level page 1 and what `fill` puts on the other pages.
fn crowd(rng: &mut Rng, fill: impl Fn(u32) -> Vec<u32>) -> Lent {
    let (memory, ledger) = fresh(rng, LARGEST);
    let mut lent = Lent { memory, ledger };
    lent.all_done(&[vec![2, 0, 1]]);
    lent.all_done(&(2..MOST_PAGES).map(fill).collect::<Vec<_>>());
    assert_eq!(lent.space(word::COUNT), LAST);
    assert_eq!(lent.obey(&[vec![13]])[0][..3], [0, 0, MOST_PAGES]);
    lent
}

/// Stops space 0 and removes its pages in any order, itself last.
fn take_down(rng: &mut Rng, lent: &mut Lent) {
    let mut pages: Vec<u32> = (1..MOST_PAGES).collect();
    for last in (1..pages.len()).rev() {
        pages.swap(last, rng.below(last as u32 + 1) as usize);
    }
    lent.all_done(&[vec![11, 0]]);
    for part in pages.chunks(17) {
        assert_eq!(lent.obey(&[vec![12, 0]])[0][0], 14);
        lent.all_done(&part.iter().map(|page| vec![12, *page]).collect::<Vec<_>>());
    }
    lent.all_done(&[vec![12, 0]]);
    assert_eq!(lent.obey(&[vec![13]])[0][..3], [0, MOST_PAGES, 0]);
}

#[test]
fn data_pages() {
    let mut rng = Rng::new(31);
    let at = |page: u32, rights| Mapping::at(HIGHEST as usize, page as usize, rights).0;
    let mut lent = crowd(&mut rng, |page| match page {
        2 => vec![4, 0, 2, HIGHEST],
        LAST => vec![3, 0, LAST, 4],
        _ => vec![6, 0, page, at(page, 3), 4 + page % 16],
    });
    assert_eq!(lent.space(word::BLOCKS), DATA_BLOCKS * (MOST_PAGES - 4) + 1);
    lent.all_done(&[vec![8, 0], vec![9, LAST], vec![41, at(LAST - 1, 0)], vec![38, 1]]);
    take_down(&mut rng, &mut lent);
}

/// As many tables as there are indexes, spare pages after them.
#[test]
fn tables() {
    let mut rng = Rng::new(32);
    let mut lent = crowd(&mut rng, |page| match HIGHEST.checked_sub(page - 2) {
        Some(index) => vec![4, 0, page, index],
        None => vec![5, 0, page],
    });
    take_down(&mut rng, &mut lent);
}

#[test]
fn threads() {
    let mut rng = Rng::new(33);
    let mut lent = crowd(&mut rng, |page| vec![3, 0, page, 4 * page]);
    assert_eq!(lent.space(word::BLOCKS), MOST_PAGES - 2);
    lent.all_done(&[vec![8, 0], vec![9, 200, 1, 2, 3], vec![38, 0]]);
    take_down(&mut rng, &mut lent);
}

#[test]
fn spares() {
    let mut rng = Rng::new(34);
    let mut lent = crowd(&mut rng, |page| vec![5, 0, page]);
    take_down(&mut rng, &mut lent);
}
