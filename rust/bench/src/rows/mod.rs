//! The rows of the table beside plain Rust.

pub mod acceptance;
mod calls;
mod checks;
mod hashes;
pub mod images;

use crate::lists::{on_larger_boxes, works, Work};
use crate::meter::Meter;
use crate::paid::Paid;
use acceptance::ByPage;
use std::io::Result;

/// A row: what is done, and what it costs in the meter's unit.
pub struct Row {
    /// What is done.
    pub name: String,
    /// The proved library's cost.
    pub ours: f64,
    /// Plain Rust's.
    pub plain: f64,
    /// The folded twin's, where the row has calls.
    pub folded: Option<f64>,
    /// What the Komodo paper measured for the same, in cycles.
    pub paper: &'static str,
}

/// What is told beside the rows.
pub struct Told {
    /// What acceptance costs for a page.
    pub by_page: Vec<ByPage>,
    /// What is paid for the calls.
    pub paid: Vec<Paid>,
}

/// All rows, each given away as soon as it is measured.
pub fn all(meter: &Meter, give: &mut dyn FnMut(&Row) -> Result<()>) -> Result<Told> {
    hashes::rows(meter).iter().try_for_each(&mut *give)?;
    give(&checks::row(meter))?;
    let mut rows = Vec::new();
    for (name, lent) in acceptance::boxes() {
        let row = acceptance::row(meter, name, &lent);
        give(&row)?;
        rows.push(row);
    }
    for (name, lent) in images::boxes() {
        images::rows(meter, &name, &lent).iter().try_for_each(&mut *give)?;
    }
    let measured = |work: Work| {
        let (row, paid) = calls::rows(meter, &work);
        give(&row).map(|()| paid)
    };
    let paid = works().into_iter().map(measured).collect::<Result<_>>()?;
    Ok(Told { by_page: acceptance::by_page(&rows), paid })
}

/// What is paid for cheap calls on larger boxes.
pub fn paid_on_larger_boxes(meter: &Meter) -> Vec<Paid> {
    on_larger_boxes().iter().map(|work| calls::rows(meter, work).1).collect()
}
