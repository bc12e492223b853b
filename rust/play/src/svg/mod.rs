//! The state of a box drawn as SVG: pages by owner and type, arrows from spaces
//! to tables to frames. It stands alone: no scripts, no fonts of its own.

mod apart;
mod block;
mod bound;
mod family;
mod head;
mod insecure;
mod layout;
mod numbers;
mod routes;
mod scene;
mod sheet;
mod slots;
mod space;
mod tables;
mod words;

use block::Block;
use insecure::Insecure;
use layout::{GAP, LEFT};
use monitor::{Machine, Monitor};
use scene::Scene;
use sheet::Sheet;

/// The picture of a box.
pub fn svg(bench: &Monitor) -> String {
    of_words(bench.machine(), bench.memory().words(), bench.ledger().words())
}

/// The picture of any state, in order or not. It is under 600,000 bytes long,
/// under 32,767 pixels high and under 2,000 wide.
pub fn of_words(machine: Machine, memory: &[u32], ledger: &[u32]) -> String {
    let scene = Scene::new(machine, memory, ledger);
    let mut sheet = Sheet::default();
    let title = head::title(&scene);
    let (top, wide) = head::draw(&mut sheet, &title, &scene);
    let families = scene.families();
    let mut y = if families.is_empty() { top } else { head::headings(&mut sheet, top) };
    let mut exits = Vec::new();
    let (blocks, further) = families.split_at(families.len().min(scene.bounds.spaces));
    for (ink, family) in blocks.iter().enumerate() {
        let mut block = Block { sheet: &mut sheet, scene: &scene, exits: &mut exits, ink };
        y = space::draw(&mut block, family, y) + GAP;
    }
    let panel = Insecure::draw(&mut sheet, &exits);
    let under = apart::spaces(&mut sheet, &scene, further, y);
    let end = apart::draw(&mut sheet, &scene, under);
    let free = y.max(top + head::HEADING);
    let bottom = panel.others(&mut sheet, &scene, &families, free).max(end);
    let right = panel.panel(&mut sheet, top, bottom);
    sheet.finish(&title, wide.max(right + LEFT), bottom + LEFT)
}
