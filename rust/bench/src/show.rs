//! The tables as text.

use crate::bound::Bound;
use crate::meter::Meter;
use crate::paid::Paid;
use crate::rows::acceptance::{ByPage, BY_PAGE};
use crate::rows::Row;

/// What stands before the table beside plain Rust.
pub fn head(meter: &Meter) -> String {
    let sides = ["ours", "plain", "ratio", "folded", "ratio"].map(String::from);
    format!(
        "{}; calls: for each call or pair, acceptance taken off
folded: plain, but a record is read by a match, its zeros tested all at once
dearest: the dearest box found, 4 spaces with 1016 tables, every slot in use
by clock: the same tables, each slot by chance empty or in use
image: all blocks of a box, written or read into a spare; acceptance apart
paper: cycles in the Komodo paper's table 3, on an Arm core of its day;
  of a pair those of AllocSpare or MapData alone

{}",
        meter.unit(),
        columns("", sides, "paper")
    )
}

/// A line of it.
pub fn row(row: &Row) -> String {
    let ratio = |ratio: f64| format!("{ratio:.2}");
    let folded = [row.folded.map(cost), row.folded.map(|folded| ratio(row.ours / folded))];
    let [folded, to_folded] = folded.map(Option::unwrap_or_default);
    let sides = [cost(row.ours), cost(row.plain), ratio(row.ours / row.plain), folded, to_folded];
    columns(&row.name, sides, row.paper)
}

fn cost(cost: f64) -> String {
    format!("{cost:.0}")
}

fn columns(
    name: &str,
    [ours, plain, to_plain, folded, to_folded]: [String; 5],
    paper: &str,
) -> String {
    let line = format!(
        "{name:31} {ours:>9} {plain:>9} {to_plain:>5} {folded:>8} {to_folded:>5} {paper:>6}"
    );
    line.trim_end().to_string()
}

/// The table of acceptance by the page.
pub fn by_page(rows: &[ByPage]) -> String {
    let [fewer, more] = BY_PAGE.map(|pages| format!("n = {pages}"));
    let line = |row: &ByPage| {
        let [fewer, more] = row.costs.map(|cost| format!("{cost:.1}"));
        page_columns(row.name, [fewer, more, format!("{:.3}", row.ratio())])
    };
    let head = "acceptance, shared by the pages of its box: linear where the ratio is 1\n";
    [head.to_string(), page_columns("", [fewer, more, "ratio".into()])]
        .into_iter()
        .chain(rows.iter().map(line))
        .collect::<Vec<_>>()
        .join("\n")
}

fn page_columns(name: &str, [fewer, more, ratio]: [String; 3]) -> String {
    format!("{name:20} {fewer:>9} {more:>9} {ratio:>6}")
}

/// The table of calls as they are paid.
pub fn paid(rows: &[Paid]) -> String {
    let heads = ["n", "acceptance", "alone", "calls", "in a batch", "without"].map(String::from);
    let head = "as it is paid, ours: each batch starts with acceptance of its box
alone: a batch of 1 (a pair: two); in a batch: of so many calls, for each call
or pair; without: in that batch, acceptance taken off, as above\n";
    let lines = rows.iter().map(paid_line);
    [head.to_string(), paid_columns("", heads)]
        .into_iter()
        .chain(lines)
        .collect::<Vec<_>>()
        .join("\n")
}

fn paid_line(row: &Paid) -> String {
    let [acceptance, alone, shared, without] =
        [row.acceptance, row.alone, row.shared, row.without].map(cost);
    let [pages, calls] = [row.pages.to_string(), row.calls.to_string()];
    paid_columns(row.name, [pages, acceptance, alone, calls, shared, without])
}

fn paid_columns(name: &str, [n, acceptance, alone, calls, shared, without]: [String; 6]) -> String {
    format!("{name:20} {n:>4} {acceptance:>11} {alone:>9} {calls:>6} {shared:>11} {without:>9}")
}

/// The bound and the dearest lists found.
pub fn bound(meter: &Meter, bound: &Bound) -> String {
    let line = |name: &str, cost| format!("{name:48} {:>14}", meter.large(cost));
    let [counted, clocked] = bound.lists;
    let found = |name, cost| format!("{}  {:.2}", line(name, cost), cost / bound.bound());
    let head = "a batch of 512 at its dearest, n = 1024, F = 16384
lists: acceptance in, and the ratio to the bound\n";
    [
        head.into(),
        line("dearest call, MapSecure", bound.call),
        line("dearest acceptance found", bound.acceptance),
        line("bound: 512 of that call, and that acceptance", bound.bound()),
        found("dearest list found: 512 MapSecure, 508 tables", counted),
        found("dearest by clock: 256 MapSecure, 1015 tables", clocked),
    ]
    .join("\n")
}
