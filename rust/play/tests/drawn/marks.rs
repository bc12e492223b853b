//! What is drawn, by its edges, and that nothing lies over anything else.

use super::number;

/// A rectangle: left, upper, right and lower edge.
type Area = [f64; 4];

/// What is drawn, by its edges.
#[derive(Default)]
struct Marks {
    sheet: Area,
    cards: Vec<Area>,
    words: Vec<(Area, String)>,
    /// The pieces of each arrow.
    arrows: Vec<Vec<Area>>,
}

fn rectangle(line: &str) -> Area {
    let [x, y, w, h] = ["x", "y", "width", "height"].map(|name| number(line, name));
    [x, y, x + w, y + h]
}

/// Words are as wide as a common fixed font has them.
fn words(line: &str) -> (Area, String) {
    let size = if line.contains("\"title\"") {
        16.0
    } else if line.contains("\"label") {
        11.0
    } else {
        12.0
    };
    let (x, y) = (number(line, "x"), number(line, "y"));
    let text = line.split(['>', '<']).nth(2).expect("words").to_string();
    let wide = 0.602 * size * text.chars().count() as f64;
    ([x, y - 0.75 * size, x + wide, y + 0.2 * size], text)
}

/// The pieces of an arrow, each upright or level.
fn pieces(line: &str) -> Vec<Area> {
    let path = line.split(" d=\"M").nth(1).and_then(|rest| rest.split('"').next()).expect("a path");
    let point = |pair: &str| {
        let (x, y) = pair.split_once(' ').expect("a point");
        (x.parse::<f64>().expect("a number"), y.parse::<f64>().expect("a number"))
    };
    let points: Vec<(f64, f64)> = path.split('L').map(point).collect();
    let piece = |ends: &[(f64, f64)]| {
        let ((a, b), (c, d)) = (ends[0], ends[1]);
        assert!(a == c || b == d, "neither upright nor level: {line}");
        [a.min(c), b.min(d), a.max(c), b.max(d)]
    };
    points.windows(2).map(piece).collect()
}

fn marks(drawn: &str) -> Marks {
    let mut marks = Marks::default();
    for line in drawn.lines() {
        if line.starts_with("<rect class=\"\"") {
            marks.cards.push(rectangle(line));
        } else if line.starts_with("<rect class=\"sheet\"") {
            marks.sheet = rectangle(line);
        } else if line.starts_with("<text") {
            marks.words.push(words(line));
        } else if line.starts_with("<path class") {
            marks.arrows.push(pieces(line));
        }
    }
    marks
}

/// Whether two areas share more than an edge.
fn meet(a: &Area, b: &Area) -> bool {
    a[0] < b[2] && b[0] < a[2] && a[1] < b[3] && b[1] < a[3]
}

fn inside(a: &Area, b: &Area) -> bool {
    b[0] <= a[0] && b[1] <= a[1] && a[2] <= b[2] && a[3] <= b[3]
}

/// An arrow's piece has no width: it runs through what holds a part of it.
fn runs_through(line: &Area, area: &Area) -> bool {
    let [x, y, right, lower] = *line;
    meet(
        &[x - 0.5, y - 0.5, right + 0.5, lower + 0.5],
        &[area[0] + 0.6, area[1] + 0.6, area[2] - 0.6, area[3] - 0.6],
    )
}

/// Whether two pieces run along each other: side by side nearer than 4 pixels, or
/// one over the other.
fn run_along(a: &Area, b: &Area) -> bool {
    let shared = |from: usize| a[from + 2].min(b[from + 2]) - a[from].max(b[from]);
    let near = |from: usize| (a[from] - b[from]).abs() < 4.0;
    let thin = |from: usize| a[from] == a[from + 2] && b[from] == b[from + 2];
    (thin(0) && near(0) && shared(1) > 0.0) || (thin(1) && near(1) && shared(0) > 0.0)
}

/// No words over others, no card over another, no arrow through either, and no
/// two arrows along each other.
pub fn nothing_overlaps(drawn: &str) {
    let Marks { sheet, cards, words, arrows } = marks(drawn);
    let clear = |area: &Area| !arrows.iter().flatten().any(|line| runs_through(line, area));
    for (place, (area, text)) in words.iter().enumerate() {
        assert!(inside(area, &sheet), "{text}");
        for (other, words) in &words[..place] {
            assert!(!meet(area, other), "{text} lies over {words}");
        }
        assert!(cards.iter().all(|card| !meet(area, card) || inside(area, card)), "{text}");
        assert!(clear(area), "an arrow through {text}");
    }
    for (place, card) in cards.iter().enumerate() {
        assert!(inside(card, &sheet) && !cards[..place].iter().any(|other| meet(card, other)));
        assert!(clear(card), "an arrow through {card:?}");
    }
    for (place, arrow) in arrows.iter().enumerate() {
        for other in &arrows[..place] {
            let both = arrow.iter().flat_map(|a| other.iter().map(move |b| (a, b)));
            let along = both.into_iter().find(|(a, b)| run_along(a, b));
            assert!(along.is_none(), "two arrows along each other: {along:?}");
        }
    }
}
