//! Where things stand on the sheet, in pixels.

use super::sheet::CARD;

/// The left edge of every panel.
pub const LEFT: u32 = 20;
/// From a panel's edge to what it holds.
pub const PAD: u32 = 14;
/// Between panels, and between cards.
pub const GAP: u32 = 12;
/// From one slot's row to the next.
pub const ROW: u32 = 28;
/// From the top of a card to where arrows meet it.
pub const MID: u32 = CARD / 2;
/// The width of a space's card, and of a table's.
pub const WIDTH: u32 = 150;
/// Where the columns start.
pub const SPACE: u32 = LEFT + PAD;
pub const FIRST: u32 = SPACE + WIDTH + 44;
pub const TABLE: u32 = FIRST + WIDTH + 96;
pub const DATA: u32 = TABLE + WIDTH + 124;
/// The width of a data page's card.
pub const DATA_WIDTH: u32 = 196;
/// The right edge of every panel but that of the insecure frames.
pub const RIGHT: u32 = DATA + DATA_WIDTH + PAD;
/// What stands over the columns.
pub const HEADINGS: [(u32, &str); 4] =
    [(SPACE, "Space"), (FIRST, "First level"), (TABLE, "Second level"), (DATA, "Data pages")];
