//! Any text at all: it is read, or something is wrong at a place in it.

use plan::text::Text;

/// Pieces that texts are made of.
const PIECES: [&[u8]; 20] = [
    b" ",
    b"\n",
    b";",
    b"=",
    b"#",
    b"1",
    b"13",
    b"2 0 1",
    b"42",
    b"InitL2PTable",
    b"Enter",
    b"4294967295",
    b"4294967296",
    b"x",
    b"(",
    b"-",
    b"\t",
    b"\xff",
    b" 7 7 7 7 7 7 7 7",
    b"; ",
];

/// Numbers that look random, the same each time.
fn next(state: &mut u64) -> usize {
    *state = state.wrapping_mul(6364136223846793005).wrapping_add(1442695040888963407);
    (*state >> 33) as usize
}

#[test]
fn any_text() {
    let (mut state, mut good) = (1, 0);
    for _ in 0..100_000 {
        // Strays are at the end of the list, and rare, so that some plans are good.
        let most = [PIECES.len(), 12, 12, 12][next(&mut state) % 4];
        let count = next(&mut state) % 12;
        let text: Vec<u8> =
            (0..count).flat_map(|_| PIECES[next(&mut state) % most].to_vec()).collect();
        let lines = text.iter().filter(|byte| **byte == b'\n').count() + 1;
        match Text::new("plan".into(), text.clone()) {
            Ok(plan) => {
                good += usize::from(plan.items().count() > 0);
                assert!(plan.items().all(|item| (1..=32).contains(&item.words().len())));
            }
            Err(what) => {
                let place: Vec<&str> = what.splitn(4, ':').collect();
                let number = |part: &str| part.parse::<usize>().expect(&what);
                assert!((1..=lines).contains(&number(place[1])), "{what}");
                assert!((1..=text.len() + 1).contains(&number(place[2])), "{what}");
                assert!(!what.contains('\n') && place[3].len() > 10, "{what}");
            }
        }
    }
    assert!(good > 1_000, "{good}");
}
