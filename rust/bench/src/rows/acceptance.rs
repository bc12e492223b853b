//! Acceptance of a box.

use super::Row;
use crate::boxes::{dearest, full, small, Lent};
use crate::meter::Meter;
use crate::sides::{accepts, Accepting};
use second::direct;
use second::layout::MOST_PAGES;

/// The pages of the boxes that are measured at several sizes.
const SIZES: [u32; 4] = [8, 64, 256, MOST_PAGES];

/// Those at which acceptance's cost for a page is compared.
pub const BY_PAGE: [u32; 2] = [256, MOST_PAGES];

const FULL: &str = "full box";
const FRESH: &str = "fresh box";

fn name(how: &str, pages: u32) -> String {
    format!("acceptance, {how}, n = {pages}")
}

/// The boxes, by what their rows say.
pub fn boxes() -> Vec<(String, Lent)> {
    let fresh = |pages| Lent::after(small(pages), &[]);
    let several = SIZES.map(|pages| (FULL, full(pages))).into_iter();
    let several = several.chain(SIZES.map(|pages| (FRESH, fresh(pages))));
    let dearest = [("dearest", dearest::in_instructions()), ("by clock", dearest::by_the_clock())];
    several.chain(dearest).map(|(how, lent)| (name(how, lent.machine.pages), lent)).collect()
}

/// The row of one.
pub fn row(meter: &Meter, name: String, lent: &Lent) -> Row {
    let mut sides = [accepts, direct::accepts].map(|accepts| Accepting { lent, accepts });
    let [ours, plain] = &mut sides;
    let costs = meter.measure(&mut [ours, plain]);
    Row { name, ours: costs[0], plain: costs[1], folded: None, paper: "" }
}

/// What acceptance costs for each page of a smaller and of a larger box.
pub struct ByPage {
    /// The box, and whose acceptance.
    pub name: &'static str,
    /// The costs.
    pub costs: [f64; 2],
}

impl ByPage {
    /// The larger box's over the smaller one's: 1 where it is linear.
    pub fn ratio(&self) -> f64 {
        self.costs[1] / self.costs[0]
    }
}

/// From the rows of these boxes.
pub fn by_page(rows: &[Row]) -> Vec<ByPage> {
    let of = |box_name: &str, side: fn(&Row) -> f64, pages: u32| {
        let mut rows = rows.iter().filter(|row| row.name == name(box_name, pages));
        side(rows.next().expect("its row")) / f64::from(pages)
    };
    let ours: fn(&Row) -> f64 = |row| row.ours;
    let plain: fn(&Row) -> f64 = |row| row.plain;
    [
        ("full box, ours", FULL, ours),
        ("full box, plain", FULL, plain),
        ("fresh box, ours", FRESH, ours),
        ("fresh box, plain", FRESH, plain),
    ]
    .map(|(name, how, side)| ByPage { name, costs: BY_PAGE.map(|pages| of(how, side, pages)) })
    .into()
}
