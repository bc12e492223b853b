//! Plans that are good: their forms, and their answers against those of the
//! second program.

mod common;

use common::{play, Folder};
use monitor::layout::{MOST_CALLS, MOST_PAGES, RECORD_WORDS};
use monitor::Call;
use plan::text::Text;

/// How a note about arguments that are missing, or too many, ends.
const NOTE: &str = "the rest are 0";

fn plan(text: &str) -> Text {
    Text::new("plan".into(), text.into()).expect(text)
}

fn words(text: &str) -> Vec<Vec<u32>> {
    plan(text).items().map(|item| item.words().to_vec()).collect()
}

#[test]
fn forms() {
    let two = vec![vec![2, 0, 1], vec![13]];
    for text in [
        "2 0 1;13;",
        "2 0 1; 13;",
        "2 0 1;\n13;\n",
        "\n\n  2\n0\n1\n;\n\n13 ;  ",
        "2   0   1   ;   13   ;",
        "002 00 01; 0013;",
        "InitAddrSpace 0 1; FreePages;",
        "InitAddrSpace 0 1;FreePages;# the end",
        "# a plan\n2 0 # two\n1; ##;\n13#\n;",
        "2 0 1=0 7;13 = 0;",
        "2 0 1 = # \t\r\u{fffd}\n 2; FreePages=\n0;",
    ] {
        assert_eq!(words(text), two, "{text:?}");
    }
    assert_eq!(words(""), Vec::<Vec<u32>>::new());
    assert_eq!(words(" \n \n"), Vec::<Vec<u32>>::new());
    assert_eq!(words("4294967295 4294967295;"), [[u32::MAX, u32::MAX]]);
    let most = format!("34{};", " 7".repeat(RECORD_WORDS - 1));
    assert_eq!(words(&most)[0].len(), RECORD_WORDS);
}

/// Every call by both its names.
#[test]
fn names() {
    for row in Call::ROWS {
        let arguments: Vec<u32> = (1..=row.words() as u32).collect();
        let given: String = arguments.iter().map(|word| format!(" {word}")).collect();
        for name in [row.name, row.short] {
            let call = [&[row.number], &arguments[..]].concat();
            assert_eq!(words(&format!("{name}{given};")), [call]);
        }
    }
    let tables = "InitL2PTable 1 2; InitL2PTable 1 2 3; InitTable 1 2; SpareTable 1 2 3;";
    assert_eq!(words(tables).iter().map(|call| call[0]).collect::<Vec<_>>(), [35, 4, 4, 35]);
}

#[test]
fn items_know_their_lines() {
    let text = plan("1;\n\n 2 0\n 1; 13;\n");
    let places: Vec<String> = text.items().map(|item| item.place.to_string()).collect();
    assert_eq!(places, ["1:1", "3:2", "4:5"]);
    assert_eq!(text.items().nth(1).expect("a call").to_string(), "InitAddrSpace 0 1");
}

/// The second program's cases as a plan; its box and memory are the same.
fn cases() -> String {
    let line = |row: &&[u32]| {
        let words: Vec<String> = row.iter().map(u32::to_string).collect();
        words.join(" ") + ";\n"
    };
    second::cases::CASES.iter().map(line).collect()
}

fn run(text: &str, options: &[&str]) -> String {
    let folder = Folder::new("good");
    std::fs::write(folder.0.join("plan"), text).expect("written");
    let out = play(&folder, &[&["run", "plan"], options].concat());
    let said = String::from_utf8(out.stderr).expect("UTF-8");
    assert!(out.status.success() && said.lines().all(|line| line.ends_with(NOTE)), "{said}");
    String::from_utf8(out.stdout).expect("UTF-8")
}

#[test]
fn a_long_plan_answers_as_the_second_program_does() {
    let printed = run(&cases(), &["--json"]);
    let answers = second::shift::answers();
    assert_eq!(printed.lines().count(), answers.len());
    for (line, (row, (call, answer))) in printed.lines().zip((1..).zip(answers)) {
        let start = format!("{{\"row\":{row},\"line\":{row},\"call\":{},", call[0]);
        assert!(line.starts_with(&start), "{line}");
        assert!(line.contains(&format!("\"code\":{},", answer[0])), "{line}");
        let values = line.split("\"values\":[").nth(1).expect("values").trim_end_matches("]}");
        let values: Vec<u32> =
            values.split(',').filter(|word| !word.is_empty()).map(|w| w.parse().unwrap()).collect();
        assert_eq!(values, answer[1..=values.len()], "{line}");
        assert!(answer[1 + values.len()..].iter().all(|word| *word == 0), "{line}");
    }
}

/// More calls than a batch takes.
#[test]
fn more_than_a_batch() {
    let printed = run(&"13; 2 0 1; 11 0; 12 1; 12 0;\n".repeat(MOST_CALLS), &["--json"]);
    assert_eq!(printed.lines().count(), 5 * MOST_CALLS);
    assert!(printed.lines().all(|line| line.contains("\"code\":0,")));
}

#[test]
fn the_table() {
    let printed = run("2 0 1; 2 0 1 7; 77 1; 13;", &[]);
    let lines = [
        " row  call                          code  answer",
        "   1  InitAddrSpace 0 1                0  done",
        "   2  InitAddrSpace 0 1 7             19  not the record of a call",
        "   3  unknown 77 1                    19  not the record of a call",
        "   4  FreePages                        0  6 free, the lowest is 2",
        "",
    ];
    assert_eq!(printed, lines.join("\n"));
    assert_eq!(run("", &[]), [lines[0], ""].join("\n"));
    assert_eq!(run(" ", &["--json"]), "");
}

#[test]
fn another_machine_and_key() {
    let largest = format!("{},0,{MOST_PAGES},{MOST_PAGES},1", MOST_PAGES + 44);
    let printed = run("1;", &["--machine", &largest, "--json"]);
    assert!(printed.contains(&format!("\"values\":[{MOST_PAGES}]")), "{printed}");
    let attest = "2 0 1; 3 0 2 0; 8 0; 9 2; 33 1 2 3 4 5 6 7 8;";
    let one = run(attest, &[]);
    let other = run(attest, &["--key", "8,7,6,5,4,3,2,4294967295"]);
    assert_ne!(one.lines().last(), other.lines().last());
    assert_eq!(one.lines().nth(4), other.lines().nth(4));
}
