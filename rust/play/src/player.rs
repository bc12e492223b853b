//! Plays a plan: in batches, or call by call for those who look at the box
//! after each. Says what is worth a note, and where an answer is not as the
//! plan expects it.

use crate::fresh;
use monitor::layout::{MOST_CALLS, RECORD_WORDS};
use monitor::{Answer, Call, Monitor, Record, Refusal};
use plan::options::Fresh;
use plan::stop::{say, Stop};
use plan::text::{Item, Text};

/// A call of a plan with its answer.
pub struct Played {
    /// Which call of the plan it is, from 1.
    pub row: usize,
    /// The call as the plan gives it.
    pub item: Item,
    /// Its record as a call; none where it is none.
    pub call: Option<Call>,
    /// Its answer.
    pub answer: Answer,
}

impl Played {
    fn new(row: usize, item: Item, answer: &Record) -> Played {
        let call = Call::decode(item.record());
        let stray = Answer::Refused(Refusal::BadRecord);
        let read = match &call {
            Some(call) => Answer::decode(call, answer),
            None => (stray.encode() == *answer).then_some(stray),
        };
        Played { row, item, call, answer: read.expect("an answer of the call's row") }
    }

    /// The answer in words, with values that the words leave out.
    pub fn in_words(&self) -> String {
        match self.answer {
            Answer::Runs(_) | Answer::Attested(_) => {
                format!("{}: {}", self.answer, list(&self.answer.values()))
            }
            _ => self.answer.to_string(),
        }
    }

    /// Says so where the answer is not the expected one.
    fn differs(&self) -> Option<String> {
        let expected = self.item.expected();
        let found = &self.answer.encode()[..expected.len()];
        let what = || format!("expected {}, found {}", list(expected), list(found));
        (found != expected).then(|| format!("{}: {}", self.item.title(), what()))
    }
}

/// Words in decimal, with spaces between.
fn list(words: &[u32]) -> String {
    words.iter().map(u32::to_string).collect::<Vec<_>>().join(" ")
}

/// A plan on a box.
pub struct Player<'p> {
    text: &'p Text,
    bench: Monitor,
    met: bool,
}

impl<'p> Player<'p> {
    /// The plan on a fresh box.
    pub fn new(text: &'p Text, asked: &Fresh) -> Result<Player<'p>, Stop> {
        let bench = fresh(asked.machine, &asked.key).map_err(|fault| fault.to_string())?;
        Ok(Player::on(text, bench))
    }

    /// The plan on this box.
    pub fn on(text: &'p Text, bench: Monitor) -> Player<'p> {
        Player { text, bench, met: true }
    }

    /// The box.
    pub fn bench(&self) -> &Monitor {
        &self.bench
    }

    /// Whether every answer was as the plan expects it.
    pub fn met(&self) -> bool {
        self.met
    }

    /// Plays the plan in batches. After each, those who listen get its calls
    /// with their answers.
    pub fn play(
        &mut self,
        mut listen: impl FnMut(&[Played]) -> Result<(), Stop>,
    ) -> Result<(), Stop> {
        self.batches(MOST_CALLS, |played, _| listen(played))
    }

    /// Plays the plan call by call. After each, those who watch get it with its
    /// answer and see the box.
    pub fn watched(
        &mut self,
        mut watch: impl FnMut(&Played, &Monitor) -> Result<(), Stop>,
    ) -> Result<(), Stop> {
        self.batches(1, |played, bench| played.iter().try_for_each(|played| watch(played, bench)))
    }

    fn batches(
        &mut self,
        size: usize,
        mut each: impl FnMut(&[Played], &Monitor) -> Result<(), Stop>,
    ) -> Result<(), Stop> {
        let name = self.text.name();
        let mut items = (1..).zip(self.text.items()).peekable();
        while items.peek().is_some() {
            let batch: Vec<(usize, Item)> = items.by_ref().take(size).collect();
            for (_, item) in &batch {
                item.note().inspect(|note| say(&format!("{name}:{}: {note}", item.place)));
            }
            let played = answered(&mut self.bench, batch)?;
            each(&played, &self.bench)?;
            for played in &played {
                if let Some(what) = played.differs() {
                    say(&format!("{name}:{}: {what}", played.item.place));
                    self.met = false;
                }
            }
        }
        Ok(())
    }
}

/// One batch on a box: the calls of a plan with their rows.
pub fn answered(bench: &mut Monitor, batch: Vec<(usize, Item)>) -> Result<Vec<Played>, Stop> {
    let calls: Vec<u32> = batch.iter().flat_map(|(_, item)| *item.record()).collect();
    let mut answers = vec![0; calls.len()];
    bench.batch_words(&calls, &mut answers).map_err(|fault| fault.to_string())?;
    let answers = answers.chunks_exact(RECORD_WORDS);
    let answers = answers.map(|words| words.try_into().expect("a record"));
    let played = batch.into_iter().zip(answers);
    Ok(played.map(|((row, item), words)| Played::new(row, item, words)).collect())
}
