//! The shift on box A in typed calls, row by row.

use monitor::layout::MAP_START;
use monitor::Refusal::{self, *};
use monitor::{Answer, Call, Key, Machine, Mapping, Monitor, Page, Registers};

const KEY: Key = Key::new([11, 12, 13, 14, 15, 16, 17, 18]);

struct Shift(Monitor);

impl Shift {
    fn fresh() -> Shift {
        Shift(Monitor::boot(Machine::BOX_A, &KEY).expect("box A fits"))
    }

    fn answer(&mut self, call: Call) -> Answer {
        let answer = self.0.call(call).expect("accepted");
        assert!(self.0.accepted());
        answer
    }

    fn done(&mut self, call: Call) {
        assert_eq!(self.answer(call), Answer::Done, "{call}");
    }

    fn refused(&mut self, call: Call, refusal: Refusal) {
        let before = self.0.clone();
        assert_eq!(self.answer(call), Answer::Refused(refusal), "{call}");
        assert!(self.0 == before, "{call}");
    }

    fn runs(&mut self, call: Call, r: [u32; 16], flags: u32) {
        assert_eq!(self.answer(call), Answer::Runs(Registers { r, flags }), "{call}");
    }
}

fn started(x: u32, y: u32, z: u32) -> [u32; 16] {
    [x, y, z, 0, 0, 0, 0, 0, 0, 0, 0, 0, 0, 0, 0, 4096]
}

#[test]
fn the_shift() {
    let mut a = Shift::fresh();
    let map = Mapping::at(4096).expect("a page").writable();

    a.refused(Call::InitAddrSpace { space: 0, first: 0 }, NotFree);
    a.refused(Call::InitAddrSpace { space: 8, first: 8 }, NoSuchPage);
    a.done(Call::InitAddrSpace { space: 0, first: 1 });
    a.refused(Call::InitAddrSpace { space: 1, first: 2 }, NotFree);

    a.refused(Call::InitTable { space: 1, page: 2, index: 0 }, NotSpace);
    a.refused(Call::InitTable { space: 0, page: 2, index: 256 }, NoSuchIndex);
    a.done(Call::InitTable { space: 0, page: 2, index: 0 });
    a.refused(Call::InitTable { space: 0, page: 3, index: 0 }, SlotTaken);

    let elsewhere = Mapping::new(1, 0).expect("in range").writable();
    a.refused(Call::MapSecure { space: 0, page: 3, map: elsewhere, frame: 2 }, NoTable);
    for frame in [6, 1, 16] {
        a.refused(Call::MapSecure { space: 0, page: 3, map, frame }, NotInsecure);
    }
    a.done(Call::MapSecure { space: 0, page: 3, map, frame: 5 });
    assert_eq!(a.0.memory().frame(6 + 2).expect("page 2")[1], 36867);

    a.done(Call::InitThread { space: 0, page: 4, entry: 4096 });
    let Some(Page::Space(space)) = a.0.ledger().page(0) else { panic!("page 0 is a space") };
    assert_eq!((space.blocks, space.owned, a.0.ledger().words()[MAP_START]), (66, 4, 224));
    assert_eq!(a.answer(Call::FreePages), Answer::Free { count: 3, lowest: 5 });
    let enter = Call::Enter { thread: 4, x: 7, y: 8, z: 9 };
    a.refused(enter, OwnerNotFinal);

    a.done(Call::Finalise { space: 0 });
    a.refused(Call::Finalise { space: 0 }, WrongState);
    a.runs(enter, started(7, 8, 9), 0);

    a.refused(Call::InitThread { space: 0, page: 5, entry: 0 }, WrongTime);
    a.done(Call::Store { address: 4096, word: 1 });
    assert_eq!(a.answer(Call::Load { address: 4098 }), Answer::Faulted);
    a.refused(Call::Load { address: 4096 }, WrongTime);

    a.runs(enter, started(7, 8, 9), 0);
    let registers = Registers { r: [3; 16], flags: u32::MAX };
    assert_eq!(a.answer(Call::Interrupt { registers }), Answer::Interrupted);
    a.refused(enter, Suspended);
    a.runs(Call::Resume { thread: 4 }, [3; 16], 0xf000_0000);
    assert_eq!(a.answer(Call::Exit { value: 5 }), Answer::Exited(5));
    a.refused(Call::Remove { page: 3 }, NotStopped);

    a.done(Call::Stop { space: 0 });
    a.refused(Call::Remove { page: 0 }, StillOwns);
    for page in [1, 2, 3, 4, 0] {
        a.done(Call::Remove { page });
    }
    a.refused(Call::Remove { page: 0 }, AlreadyFree);
    assert!(a.0.ledger().pages().all(|page| page == Some(Page::Free)));
}

/// One batch gives what single calls give.
#[test]
fn one_batch() {
    let calls = [
        Call::InitAddrSpace { space: 0, first: 1 },
        Call::AllocSpare { space: 0, page: 5 },
        Call::FreePages,
        Call::Remove { page: 5 },
        Call::GetPhysPages,
    ];
    let (mut whole, mut single) = (Shift::fresh().0, Shift::fresh().0);
    let answers = whole.batch(&calls).expect("accepted");
    assert_eq!(answers, calls.map(|call| single.call(call).expect("accepted")));
    assert_eq!(
        answers[2..],
        [Answer::Free { count: 5, lowest: 2 }, Answer::Done, Answer::Pages(8)]
    );
    assert!(whole == single);
    assert_eq!(whole.batch(&[]), Ok(vec![]));
}

#[test]
fn attestations_verify() {
    let mut a = Shift::fresh();
    a.done(Call::InitAddrSpace { space: 0, first: 1 });
    a.done(Call::InitThread { space: 0, page: 2, entry: 0 });
    a.done(Call::Finalise { space: 0 });
    a.answer(Call::Enter { thread: 2, x: 0, y: 0, z: 0 });
    let Some(Page::Space(space)) = a.0.ledger().page(0) else { panic!("page 0 is a space") };
    let data = [1, 2, 3, 4, 5, 6, 7, 8];
    let Answer::Attested(mac) = a.answer(Call::Attest { data }) else { panic!("attested") };
    let mut verify = |mac| a.answer(Call::Verify { data, measurement: space.hash, mac });
    assert_eq!(verify(mac), Answer::Verified(true));
    assert_eq!(verify([0; 8]), Answer::Verified(false));
}
