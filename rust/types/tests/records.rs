//! Calls, answers and pages to words and back, both ways round.

use second::calls::{by_number, CALLS};
use second::random::Rng;
use types::layout::RECORD_WORDS;
use types::{Answer, Call, Page, Record, Refusal, Registers, Row};

fn record(rng: &mut Rng, words: usize) -> Record {
    std::array::from_fn(|place| if place < words { rng.word() } else { 0 })
}

/// Words drawn around the table: known and unknown numbers, a word too many.
fn any_call(rng: &mut Rng) -> Record {
    let row = &CALLS[rng.below(CALLS.len() as u32) as usize];
    let (number, arguments) = (row.number, row.arguments);
    let extra =
        if rng.once_in(4) { rng.below((RECORD_WORDS - 1 - arguments) as u32) as usize } else { 0 };
    let mut words = record(rng, 1 + arguments + extra);
    words[0] = if rng.once_in(8) { rng.word() >> rng.below(32) } else { number };
    words
}

#[test]
fn a_call_is_read_exactly_where_its_record_is_good() {
    let mut rng = Rng::new(1);
    for _ in 0..20_000 {
        let words = any_call(&mut rng);
        let rest = |arguments: usize| words[1 + arguments..].iter().all(|word| *word == 0);
        let good = by_number(words[0]).is_some_and(|row| rest(row.arguments));
        let call = Call::decode(&words);
        assert_eq!(call.is_some(), good, "{words:?}");
        if let Some(call) = call {
            assert_eq!(call.encode(), words);
            assert_eq!(Call::decode(&call.encode()), Some(call));
        }
    }
}

#[test]
fn refusals_have_the_codes_of_the_table() {
    let mut codes: Vec<u32> = second::shift::MEANINGS.iter().map(|(code, _)| *code).collect();
    codes.retain(|code| ![0, 32, 33].contains(code));
    assert_eq!(Refusal::ALL.map(Refusal::code)[..], codes);
    for code in 0..100 {
        assert_eq!(Refusal::from_code(code).is_some(), codes.contains(&code));
    }
    let mut texts: Vec<String> = Refusal::ALL.iter().map(Refusal::to_string).collect();
    texts.sort();
    texts.dedup();
    assert_eq!(texts.len(), Refusal::ALL.len(), "each reason has its own words");
}

fn answers(rng: &mut Rng) -> Vec<(Call, Answer)> {
    let registers = Registers { r: [rng.word(); 16], flags: rng.word() };
    let eight = std::array::from_fn(|_| rng.word());
    vec![
        (Call::GetPhysPages, Answer::Pages(rng.word())),
        (Call::FreePages, Answer::Free { count: rng.word(), lowest: rng.word() }),
        (Call::Stop { space: 0 }, Answer::Done),
        (Call::Enter { thread: 0, x: 0, y: 0, z: 0 }, Answer::Runs(registers)),
        (Call::Resume { thread: 0 }, Answer::Runs(registers)),
        (Call::GetRandom { word: 0 }, Answer::Random(rng.word())),
        (Call::Attest { data: [0; 8] }, Answer::Attested(eight)),
        (Call::Verify { data: [0; 8], measurement: [0; 8], mac: [0; 8] }, Answer::Verified(true)),
        (Call::Verify { data: [0; 8], measurement: [0; 8], mac: [0; 8] }, Answer::Verified(false)),
        (Call::Exit { value: 0 }, Answer::Exited(rng.word())),
        (Call::Load { address: 0 }, Answer::Loaded(rng.word())),
        (Call::Load { address: 0 }, Answer::Faulted),
        (Call::Interrupt { registers }, Answer::Interrupted),
        (Call::Fault, Answer::Faulted),
    ]
}

#[test]
fn answers_there_and_back() {
    let mut rng = Rng::new(2);
    for _ in 0..200 {
        for (call, answer) in answers(&mut rng) {
            assert_eq!(Answer::decode(&call, &answer.encode()), Some(answer));
        }
    }
}

/// A record of this word and zeros.
fn alone(word: u32) -> Record {
    std::array::from_fn(|place| if place == 0 { word } else { 0 })
}

/// A call is answered with the codes of its row and no other.
#[test]
fn an_answer_is_of_the_calls_row() {
    for row in Call::ROWS {
        let call = Call::decode(&alone(row.number)).expect("a call");
        let refusals = Refusal::FIRST.iter().chain(row.refusals).map(|refusal| refusal.code());
        let codes: Vec<u32> = refusals.chain(row.outcomes.iter().copied()).collect();
        for code in (0..100).chain([u32::MAX]) {
            let answer = Answer::decode(&call, &alone(code));
            assert_eq!(answer.is_some(), codes.contains(&code), "{call} {code}");
            assert!(answer.iter().all(|answer| answer.encode() == alone(code)));
            assert_eq!(Row::of(row.number).map(|row| row.answers(code)), Some(answer.is_some()));
        }
    }
}

/// Words that answer no call of this kind.
#[test]
fn strange_answers_are_none() {
    let verify = Call::Verify { data: [0; 8], measurement: [0; 8], mac: [0; 8] };
    for (call, words) in [
        (Call::FreePages, vec![18]),
        (Call::FreePages, vec![20]),
        (Call::FreePages, vec![10]),
        (Call::FreePages, vec![32]),
        (Call::FreePages, vec![33]),
        (Call::FreePages, vec![15, 1]),
        (Call::FreePages, vec![0, 1, 2, 3]),
        (Call::Fault, vec![0]),
        (Call::Fault, vec![33, 1]),
        (verify, vec![0, 2]),
        (Call::Stop { space: 0 }, vec![0, 1]),
    ] {
        let mut record = [0; RECORD_WORDS];
        record[..words.len()].copy_from_slice(&words);
        assert_eq!(Answer::decode(&call, &record), None, "{call} {words:?}");
    }
}

#[test]
fn pages_there_and_back() {
    let mut rng = Rng::new(3);
    let mut read = 0;
    for _ in 0..50_000 {
        let named = rng.pick(&[1, 2, 3, 4, 6, 14, 21, 22]);
        let mut words = record(&mut rng, named);
        words[0] = rng.below(8);
        if rng.once_in(2) {
            words[3] = rng.below(4);
        }
        if let Some(page) = Page::decode(&words) {
            assert_eq!(page.encode(), words);
            assert_eq!(Page::decode(&page.encode()), Some(page));
            read += 1;
        }
    }
    assert!(read > 5_000, "{read}");
}
