//! Marks on a sheet in three layers, written as SVG: panels behind, then lines,
//! then cards and words, so that no line runs over a word.

use std::fmt::Write;

/// Height of a card of one line.
pub const CARD: u32 = 22;
/// From one line of a card to the next.
const LINE: u32 = 15;
/// The colours of arrows; each space takes the next.
const INKS: [&str; 6] = ["#1f5fbf", "#b3261e", "#1b7f3b", "#8a4fbf", "#b36b00", "#00727a"];
const STYLE: &str = "
text{font-family:monospace;font-size:12px;fill:#111}
.head{font-weight:bold}
.label{font-size:11px;fill:#333}
.title{font-size:16px;font-weight:bold}
rect{stroke:#555;stroke-width:1;fill:#fff}
.sheet{stroke:none}
.panel{fill:#f6f7fb;stroke:#b8bcc8}
.stopped,.stopped rect{fill:#dcdcdc}
.space rect{fill:#9ec5fe}
.first rect{fill:#9fe3e6}
.table rect{fill:#b4e3bd}
.data rect{fill:#ffe08a}
.thread rect{fill:#e3c0f7}
.spare rect{fill:#d9c7a3}
.insecure rect{fill:#f9cdb6}
.monitor rect{fill:#c3c6da}
.disorder rect,.ghost rect{fill:#fff;stroke:#b3261e;stroke-dasharray:4 3}
.ghost .head{font-weight:normal}
.runs rect{stroke:#b3261e;stroke-width:3}
.suspended rect{stroke:#b36b00;stroke-width:3;stroke-dasharray:7 3}
.arrow{fill:none;stroke-width:1.5}
.astray{stroke-dasharray:4 3}
";

/// A rectangle of the sheet, in pixels.
#[derive(Clone, Copy)]
pub struct Area {
    pub x: u32,
    pub y: u32,
    pub w: u32,
    pub h: u32,
}

/// The sheet.
#[derive(Default)]
pub struct Sheet {
    panels: String,
    lines: String,
    cards: String,
}

/// The height of a card of so many lines.
pub const fn card_height(lines: usize) -> u32 {
    CARD + LINE * lines.saturating_sub(1) as u32
}

impl Sheet {
    /// A panel behind everything.
    pub fn panel(&mut self, class: &str, area: Area) {
        self.panels += &rect(class, area);
    }

    /// Words on their own.
    pub fn words(&mut self, class: &str, x: u32, y: u32, words: &str) {
        self.cards += &text(class, x, y, words);
    }

    /// A card with lines of words, the first of them bold.
    pub fn card(&mut self, class: &str, area: Area, lines: &[String]) {
        write!(self.cards, "<g class=\"{class}\">\n{}", rect("", area)).expect("a string");
        for (line, words) in (0..).zip(lines) {
            let class = if line == 0 { "head" } else { "label" };
            self.cards += &text(class, area.x + 8, area.y + LINE + LINE * line, words);
        }
        self.cards += "</g>\n";
    }

    /// A few words at the right end of a card's first line.
    pub fn aside(&mut self, card: Area, words: &str) {
        let x = card.x + card.w - 8 - 7 * words.chars().count() as u32;
        self.words("label", x, card.y + LINE, words);
    }

    /// An arrow through these points, in the ink of this number.
    pub fn arrow(&mut self, class: &str, ink: usize, points: &[(u32, u32)]) {
        let ink = ink % INKS.len();
        let path: Vec<String> = points.iter().map(|(x, y)| format!("{x} {y}")).collect();
        writeln!(
            self.lines,
            "<path class=\"{class}\" d=\"M{}\" stroke=\"{}\" marker-end=\"url(#ink{ink})\"/>",
            path.join("L"),
            INKS[ink],
        )
        .expect("a string");
    }

    /// The whole sheet, of this size. It has a background of its own, for
    /// viewers that are dark.
    pub fn finish(self, title: &str, width: u32, height: u32) -> String {
        let heads: String = INKS.iter().enumerate().map(arrow_head).collect();
        let Sheet { panels, lines, cards } = self;
        let title = escaped(title);
        format!(
            "<svg xmlns=\"http://www.w3.org/2000/svg\" width=\"{width}\" height=\"{height}\" \
             viewBox=\"0 0 {width} {height}\" role=\"img\" aria-labelledby=\"box\">\n\
             <title id=\"box\">{title}</title>\n<style>{STYLE}</style>\n<defs>\n{heads}</defs>\n\
             <rect class=\"sheet\" x=\"0\" y=\"0\" width=\"{width}\" height=\"{height}\" \
             fill=\"#fff\"/>\n{panels}{lines}{cards}</svg>\n"
        )
    }
}

fn arrow_head((number, ink): (usize, &&str)) -> String {
    format!(
        "<marker id=\"ink{number}\" viewBox=\"0 0 8 8\" refX=\"8\" refY=\"4\" markerWidth=\"8\" \
         markerHeight=\"8\" markerUnits=\"userSpaceOnUse\" orient=\"auto\">\
         <path d=\"M0 0L8 4L0 8Z\" fill=\"{ink}\"/></marker>\n"
    )
}

fn rect(class: &str, area: Area) -> String {
    let Area { x, y, w, h } = area;
    format!("<rect class=\"{class}\" x=\"{x}\" y=\"{y}\" width=\"{w}\" height=\"{h}\" rx=\"3\"/>\n")
}

/// Words as XML has them.
fn escaped(words: &str) -> String {
    words.replace('&', "&amp;").replace('<', "&lt;").replace('>', "&gt;")
}

fn text(class: &str, x: u32, y: u32, words: &str) -> String {
    let words = escaped(words);
    format!("<text class=\"{class}\" x=\"{x}\" y=\"{y}\">{words}</text>\n")
}

#[test]
fn words_are_escaped() {
    let drawn = text("label", 1, 2, "1 < 2 & \"<b>\"");
    assert_eq!(drawn.split(['>', '<']).nth(2), Some("1 &lt; 2 &amp; \"&lt;b&gt;\""));
    let whole = Sheet::default().finish("</title> &", 10, 20);
    assert!(whole.contains("<title id=\"box\">&lt;/title&gt; &amp;</title>"), "{whole}");
}
