//! Why a state is not accepted. The proved library alone decides whether it is;
//! the reason is the second program's, and is advice.

use crate::table::wrapped;
use crate::COLUMNS;
use monitor::layout::HEADER_WORDS;
use monitor::{words, Machine};
use second::{Broken, Rule};

/// What an accepted state does not tell.
const ACCEPTED: &str = "
The rules hold. Whether the key, a measurement or data were changed, acceptance
cannot tell.
";
/// Where the numbers of the box, or lengths by them, are what fails.
const ANOTHER: &str = "
Where it is the state of another box, --machine F,s,n,m,k says its numbers.
";
/// Where the ledger is as long as that of an older version.
const OLDER: &str = "
A ledger of this length is also what versions before 0.5.0 wrote of this box.
Then its state has to be booted anew.
";
/// The header's words, and the most pages, of those versions.
const OLDER_HEADER_WORDS: usize = 32;
const OLDER_MOST_PAGES: u32 = 256;

/// Whether these words are accepted, and what is printed of it.
pub fn why(machine: Machine, memory: &[u32], ledger: &[u32]) -> (bool, String) {
    let accepted = words::accepts(machine, memory, ledger);
    let Machine { frames, secure, pages, monitor, monitors } = machine;
    let same = second::Machine { frames, secure, pages, monitor, monitors };
    let said = said(machine, accepted, second::why(same, memory, ledger).as_ref());
    let older = if is_older(machine, ledger.len()) { OLDER } else { "" };
    (accepted, said + older)
}

/// Whether an older version kept so many words of ledger for this box.
fn is_older(machine: Machine, words: usize) -> bool {
    machine.pages <= OLDER_MOST_PAGES
        && machine.ledger_words() == words + HEADER_WORDS - OLDER_HEADER_WORDS
}

/// What is printed of a verdict, by these numbers, and of the second program's
/// advice.
pub fn said(machine: Machine, accepted: bool, advice: Option<&Broken>) -> String {
    let (not, more) = match (accepted, advice) {
        (true, _) => ("", ACCEPTED),
        (false, Some(Broken { rule: Rule::A1, .. })) => ("not ", ANOTHER),
        (false, _) => ("not ", ""),
    };
    let verdict = format!("{}: {not}accepted (by the proved check)\n", named(machine));
    let differs = match (accepted, advice) {
        (true, Some(_)) => "The second program differs: it does not accept this state.",
        (false, None) => "The second program differs: it accepts this state.",
        _ => "",
    };
    let decides = match differs {
        "" => String::new(),
        differs => format!("\n{differs}\nIt is not proved: the proved check decides.\n"),
    };
    let advice = advice.map_or(String::new(), shown);
    format!("{verdict}{decides}{advice}{more}")
}

/// A box by its numbers, as `--machine` takes them.
fn named(machine: Machine) -> String {
    let Machine { frames, secure, pages, monitor, monitors } = machine;
    let a = if machine == Machine::BOX_A { " A" } else { "" };
    format!("box{a} {frames},{secure},{pages},{monitor},{monitors}")
}

/// The advice, as such: the rule, the page, and the fault.
fn shown(broken: &Broken) -> String {
    let page = broken.page.map_or("none: it speaks of no page".into(), |page| page.to_string());
    let rule = lines(&format!("rule: {}", broken.rule));
    let fault = lines(&format!("fault: {}", broken.fault));
    let head = "The first rule broken, as unproved advice of the second program:";
    format!("\n{head}\n{rule}  page: {page}\n{fault}")
}

/// A text in lines that fit, set in.
fn lines(text: &str) -> String {
    wrapped(text, COLUMNS - 2).iter().map(|line| format!("  {line}\n")).collect()
}
