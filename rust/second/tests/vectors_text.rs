//! The printed vectors: their form, and the published results in their place.

use second::vectors::text;

#[test]
fn results_stand_after_their_messages() {
    let text = text();
    let lines: Vec<&str> = text.lines().collect();
    let after = |name: &str| -> String {
        let from = lines.iter().position(|line| *line == name).expect(name);
        let result = lines[from..].iter().position(|line| *line == "  result:").expect(name);
        lines[from + result + 1].split_whitespace().collect()
    };
    for (name, result) in [
        (
            "SHA-256 empty message",
            "e3b0c44298fc1c149afbf4c8996fb92427ae41e4649b934ca495991b7852b855",
        ),
        (
            "SHA-256 abc by compress",
            "ba7816bf8f01cfea414140de5dae2223b00361a396177a9cb410ff61f20015ad",
        ),
        (
            "SHA-256 448-bit message",
            "248d6a61d20638b8e5c026930c3e6039a33ce45964ff2167f6ecedd419db06c1",
        ),
        (
            "SHA-256 896-bit message",
            "cf5b16a778af8380036ce59e7b0492370b249b11e8f07a51afac45037afee9d1",
        ),
        (
            "SHA-256 million letters a",
            "cdc76e5c9914fb9281a1c7e284d73e67f1809a48a497200e046d39ccc7112cd0",
        ),
        (
            "HMAC-SHA-256 RFC 4231 case 1",
            "b0344c61d8db38535ca8afceaf0bf12b881dc200c9833da726e9376c2e32cff7",
        ),
        (
            "HMAC-SHA-256 RFC 4231 case 2",
            "5bdcc146bf60754e6a042426089575c75a003f089d2739839dec58b964ec3843",
        ),
    ] {
        assert_eq!(after(name), result, "{name}");
    }
}

#[test]
fn lines_have_their_form() {
    let text = text();
    assert!(text.starts_with("SHA-256 empty message\n  input:\n  result:\n    e3b0c442 98fc1c14 "));
    assert!(text.contains("\n  key:\n    4a656665\n  text:\n    77686174 20646f20 "));
    assert!(text.ends_with('\n') && !text.contains("\n\n") && !text.contains(" \n"));
}
