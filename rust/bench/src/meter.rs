//! What a piece of work costs: time by the clock, or instructions where the
//! program runs in an emulator or under callgrind, whose times say nothing.

use std::cell::Cell;
use std::hint::black_box;
use std::path::{Path, PathBuf};
use std::time::{Duration, Instant};

/// One side of a row: some work that can be done again and again.
pub trait Side {
    /// Puts back what the last run changed; not part of the cost.
    fn prepare(&mut self) {}
    /// The work.
    fn run(&mut self);
}

/// How costs are measured.
pub enum Meter {
    /// By the clock, in nanoseconds.
    Clock,
    /// By the emulator's counter of instructions, which writes its count to
    /// this file whenever the program yields.
    Emulator(PathBuf),
    /// By callgrind, which counts the instructions of [`run_once`] alone and
    /// dumps them before [`dump`] to this file and a number: so many so far.
    Callgrind(PathBuf, Cell<u32>),
}

/// How long a row may take by the clock, and its fewest and most rounds.
const ROW: Duration = Duration::from_millis(600);
const ROUNDS: std::ops::RangeInclusive<usize> = 15..=801;

impl Meter {
    /// The unit of a cost.
    pub fn unit(&self) -> &'static str {
        match self {
            Meter::Clock => "nanoseconds",
            Meter::Emulator(_) => "instructions, counted in an emulator",
            Meter::Callgrind(..) => "instructions, counted by callgrind",
        }
    }

    /// A large cost, and its unit where it is another than [`Meter::unit`].
    pub fn large(&self, cost: f64) -> String {
        match self {
            Meter::Clock => format!("{:.3} ms", cost / 1e6),
            Meter::Emulator(_) | Meter::Callgrind(..) => format!("{cost:.0}"),
        }
    }

    /// The cost of one run of each side, all measured in turns.
    pub fn measure(&self, sides: &mut [&mut dyn Side]) -> Vec<f64> {
        match self {
            Meter::Clock => by_clock(sides),
            Meter::Emulator(file) => by_count(sides, &|side| {
                let start = counted(file);
                run_once(side);
                counted(file) - start
            }),
            Meter::Callgrind(file, dumps) => by_count(sides, &|side| {
                run_once(side);
                dump(dumps);
                dumped(&format!("{}.{}", file.display(), dumps.get()))
            }),
        }
    }
}

/// Medians over many rounds, each side once a round and in turned order every
/// other round, so that what slows the machine down slows all sides.
fn by_clock(sides: &mut [&mut dyn Side]) -> Vec<f64> {
    let mut samples = vec![Vec::new(); sides.len()];
    let start = Instant::now();
    for round in 0..*ROUNDS.end() {
        if round >= *ROUNDS.start() && start.elapsed() > ROW {
            break;
        }
        for turn in 0..sides.len() {
            let side = if round % 2 == 0 { turn } else { sides.len() - 1 - turn };
            samples[side].push(timed(sides[side]));
        }
    }
    samples.iter_mut().map(|side| median(side)).collect()
}

fn timed(side: &mut dyn Side) -> f64 {
    side.prepare();
    let start = Instant::now();
    run_once(side);
    start.elapsed().as_nanos() as f64
}

fn median(samples: &mut [f64]) -> f64 {
    samples.sort_by(f64::total_cmp);
    samples[samples.len() / 2]
}

/// The work, under a name that callgrind can be told.
#[inline(never)]
pub fn run_once(side: &mut dyn Side) {
    side.run();
    // What it does last must not be a jump: callgrind waits for its return.
    black_box(());
}

/// One more dump: callgrind makes it.
#[inline(never)]
pub fn dump(dumps: &Cell<u32>) {
    dumps.set(dumps.get() + 1);
}

/// The least of a few runs, less an empty one: the first run may do work that
/// is done once.
fn by_count(sides: &mut [&mut dyn Side], run: &dyn Fn(&mut dyn Side) -> f64) -> Vec<f64> {
    let count = |side: &mut dyn Side| {
        let runs = (0..3).map(|_| {
            side.prepare();
            run(side)
        });
        runs.fold(f64::INFINITY, f64::min)
    };
    let empty = count(&mut Nothing);
    sides.iter_mut().map(|side| count(*side) - empty).collect()
}

struct Nothing;

impl Side for Nothing {
    fn run(&mut self) {}
}

/// The emulator's count at this moment.
fn counted(file: &Path) -> f64 {
    std::thread::yield_now();
    let bytes = std::fs::read(file).expect("the counter's file");
    u64::from_le_bytes(bytes.try_into().expect("8 bytes")) as f64
}

/// The count of one of callgrind's dumps.
fn dumped(file: &str) -> f64 {
    let text = std::fs::read_to_string(file).expect("callgrind's dump");
    let mut counts = text.lines().filter_map(|line| line.strip_prefix("totals: "));
    counts.next().and_then(|count| count.parse().ok()).expect("a count in callgrind's dump")
}
