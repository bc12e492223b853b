//! Plans that are bad: one line that says where, what was expected and what was
//! found, status 2, and nothing printed.

mod common;

use common::{play, Folder};
use monitor::layout::RECORD_WORDS;

fn complaint(folder: &Folder, words: &[&str]) -> String {
    common::complaint(&play(folder, words), 2)
}

#[test]
fn bad_plans() {
    let after = "expected a space, a line feed or a semicolon after a number, found";
    let first = "expected the number or name of a call, found";
    let more = "expected an argument, '=' or a semicolon, found";
    let many = format!("34{};", " 7".repeat(RECORD_WORDS));
    let many_named = many.replace("34", "Verify");
    let many_expected = format!("13 ={};", " 7".repeat(RECORD_WORDS + 1));
    let last = format!("34{} 4294967296;", " 7".repeat(RECORD_WORDS - 2));
    let table = "'./box calls' lists them";
    let tab = "a tab: spaces stand between";
    let cr = "a carriage return: lines end in line feeds alone";
    let shared = "expected 3 (InitTable) or 2 (SpareTable) arguments after InitL2PTable, found";
    let plans: &[(&[u8], String)] = &[
        (b";", format!("1:1: {first} ';'")),
        (b"1;;", format!("1:3: {first} ';'")),
        (b"1; 13\n;\n;", format!("3:1: {first} ';'")),
        (b"x", format!("1:1: {first} 'x': {table}")),
        (b"= 0;", format!("1:1: {first} '='")),
        (b"-1;", format!("1:1: {first} '-'")),
        (b"+1;", format!("1:1: {first} '+'")),
        (b"1;\n\ttwo", format!("2:1: {first} {tab}")),
        (b"1;\r\n13;\r\n", format!("1:3: {first} {cr}")),
        (b"13\r\n;", format!("1:3: {after} {cr}")),
        (b"\xef\xbb\xbf13;", format!("1:1: {first} a byte order mark: a plan has none")),
        (b"\xef\xbb13;", format!("1:1: {first} byte 239")),
        (b"1; \xff", format!("1:4: {first} byte 255")),
        (b"1; \0", format!("1:4: {first} byte 0")),
        (b"1; # \xff ;\n  ;", format!("2:3: {first} ';'")),
        (b"_x;", format!("1:1: {first} '_'")),
        (
            b"initaddrspace 0 1;",
            format!("1:1: {first} 'initaddrspace': it is written InitAddrSpace"),
        ),
        (b"13; SPARETABLE 1;", format!("1:5: {first} 'SPARETABLE': it is written SpareTable")),
        (b"FreePages2;", format!("1:1: {first} 'FreePages2': {table}")),
        (
            b"Free-Pages;",
            "1:5: expected a space, a line feed or a semicolon after a name, found '-'".into(),
        ),
        (b"1", format!("1:2: {more} the end of the file")),
        (b"2 0 1", format!("1:6: {more} the end of the file")),
        (b"2 0\n1\n\n", format!("4:1: {more} the end of the file")),
        (b"2 0 1 # ;", format!("1:10: {more} the end of the file")),
        (b"2 0, 1;", format!("1:4: {after} ','")),
        (b"2 0x1 1;", format!("1:4: {after} 'x'")),
        (b"2 3+1 0;", format!("1:4: {after} '+'")),
        (b"2 1.5 0;", format!("1:4: {after} '.'")),
        (b"2 0 -1;", format!("1:5: {more} '-'")),
        (b"2 0 a;", format!("1:5: {more} 'a'")),
        (b"13 FreePages;", format!("1:4: {more} 'FreePages'")),
        (b"1:", format!("1:2: {after} ':'")),
        (b"1\t;", format!("1:2: {after} {tab}")),
        (b"repeat 2 ( 1; )", format!("1:1: {first} 'repeat': {table}")),
        (b"1; ( 2 0 1; )", format!("1:4: {first} '('")),
        (b"4294967296;", "1:1: the first number, 4294967296, is above 4294967295".into()),
        (b"1;\n2 0 4294967296;", "2:5: the third number, 4294967296, is above 4294967295".into()),
        (
            b"6 0 3 4099 4294967296;",
            "1:12: the fifth number, 4294967296, is above 4294967295".into(),
        ),
        (
            b"MapSecure 0 3 4099 4294967296;",
            "1:20: the fourth number, 4294967296, is above 4294967295".into(),
        ),
        (
            b"2 0 123456789012345678901234567890123;",
            "1:5: the third number, 12345678901234567890123456789012.., is above 4294967295".into(),
        ),
        (
            b"18446744073709551617;",
            "1:1: the first number, 18446744073709551617, is above 4294967295".into(),
        ),
        (last.as_bytes(), "1:64: the thirty-second number, 4294967296, is above 4294967295".into()),
        (
            b"13 = 0 4294967296;",
            "1:8: the second expected number, 4294967296, is above 4294967295".into(),
        ),
        (
            many.as_bytes(),
            "1:66: expected a semicolon after at most 31 arguments, found '7'".into(),
        ),
        (
            many_named.as_bytes(),
            "1:70: expected a semicolon after at most 31 arguments, found '7'".into(),
        ),
        (
            many_expected.as_bytes(),
            "1:70: expected a semicolon after at most 32 expected numbers, found '7'".into(),
        ),
        (b"13 =;", "1:5: expected a number after '=', found ';'".into()),
        (b"13 = done;", "1:6: expected a number after '=', found 'done'".into()),
        (b"13 == 0;", "1:5: expected a number after '=', found '='".into()),
        (b"13 = 0 = 3;", "1:8: expected a number or a semicolon, found '='".into()),
        (b"13 = 0", "1:7: expected a number or a semicolon, found the end of the file".into()),
        (b"13; = 0;", format!("1:5: {first} '='")),
        (b"InitL2PTable;", format!("1:1: {shared} 0")),
        (b"1;\n InitL2PTable 1;", format!("2:2: {shared} 1")),
        (b"InitL2PTable 1 2 3 4 = 0;", format!("1:1: {shared} 4")),
    ];
    let folder = Folder::new("bad-plans");
    for (text, expected) in plans {
        std::fs::write(folder.0.join("plan.txt"), text).expect("written");
        let shown = String::from_utf8_lossy(text);
        for options in [&["run", "plan.txt"][..], &["run", "--json", "plan.txt"]] {
            let said = complaint(&folder, options);
            assert_eq!(said, format!("box: plan.txt:{expected}"), "{shown:?}");
        }
    }
    assert!(plans.len() >= 20);
    let files = std::fs::read_dir(&folder.0).expect("the folder").count();
    assert_eq!(files, 1, "nothing was written beside the plan");
}
