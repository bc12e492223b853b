use core::fmt;

/// Why a call was refused. A refused call changes nothing.
///
/// ```
/// # extern crate types as monitor;
/// use monitor::Refusal;
///
/// assert_eq!(Refusal::from_code(7), Some(Refusal::SlotTaken));
/// assert_eq!(Refusal::SlotTaken.code(), 7);
/// assert_eq!(Refusal::SlotTaken.to_string(), "the slot is taken");
/// assert_eq!(Refusal::from_code(18), None); // the whole batch's, not a call's
/// ```
#[derive(Clone, Copy, Debug, PartialEq, Eq, PartialOrd, Ord, Hash)]
pub enum Refusal {
    /// 1: a page number is n or more.
    NoSuchPage = 1,
    /// 2: a page is not free, or two pages that must differ are one.
    NotFree = 2,
    /// 3: the page is not an address space.
    NotSpace = 3,
    /// 4: the space is not building, or for AllocSpare it is stopped.
    WrongState = 4,
    /// 5: the thread's owner is not final.
    OwnerNotFinal = 5,
    /// 6: the mapping word is ill-formed, or asks to execute an insecure frame.
    IllFormed = 6,
    /// 7: the slot is taken.
    SlotTaken = 7,
    /// 8: there is no table for the address.
    NoTable = 8,
    /// 9: the frame is not insecure.
    NotInsecure = 9,
    /// 10: the page is not a thread.
    NotThread = 10,
    /// 11: the thread is suspended.
    Suspended = 11,
    /// 12: the thread is not suspended.
    NotSuspended = 12,
    /// 13: the space is not stopped.
    NotStopped = 13,
    /// 14: the space still owns pages.
    StillOwns = 14,
    /// 15: a thread runs, for calls 1-13; none does, for 32-42.
    WrongTime = 15,
    /// 16: the page is not a spare page of one's own.
    NotOwnSpare = 16,
    /// 17: the page is not a data page of one's own.
    NotOwnData = 17,
    /// 19: an unknown number, or a word that is not zero after the arguments.
    BadRecord = 19,
    /// 21: the index is [`crate::layout::MOST_TABLES`] or more.
    NoSuchIndex = 21,
    /// 22: the page is free already.
    AlreadyFree = 22,
    /// 23: the entry is not a multiple of 4, or is 2^30 or more.
    BadEntry = 23,
}

impl Refusal {
    /// All refusals, by number.
    pub const ALL: [Refusal; 21] = [
        Refusal::NoSuchPage,
        Refusal::NotFree,
        Refusal::NotSpace,
        Refusal::WrongState,
        Refusal::OwnerNotFinal,
        Refusal::IllFormed,
        Refusal::SlotTaken,
        Refusal::NoTable,
        Refusal::NotInsecure,
        Refusal::NotThread,
        Refusal::Suspended,
        Refusal::NotSuspended,
        Refusal::NotStopped,
        Refusal::StillOwns,
        Refusal::WrongTime,
        Refusal::NotOwnSpare,
        Refusal::NotOwnData,
        Refusal::BadRecord,
        Refusal::NoSuchIndex,
        Refusal::AlreadyFree,
        Refusal::BadEntry,
    ];

    /// The two that every record is asked first, in this order, before its
    /// call's own.
    pub const FIRST: [Refusal; 2] = [Refusal::BadRecord, Refusal::WrongTime];

    /// The number in word 0 of the answer record.
    pub const fn code(self) -> u32 {
        self as u32
    }

    /// The refusal of this number.
    pub fn from_code(code: u32) -> Option<Refusal> {
        Refusal::ALL.into_iter().find(|refusal| refusal.code() == code)
    }

    const fn in_words(self) -> &'static str {
        match self {
            Refusal::NoSuchPage => "no such page",
            Refusal::NotFree => "not free",
            Refusal::NotSpace => "not an address space",
            Refusal::WrongState => "the space is in the wrong state",
            Refusal::OwnerNotFinal => "the owner is not final",
            Refusal::IllFormed => "the mapping word is ill-formed",
            Refusal::SlotTaken => "the slot is taken",
            Refusal::NoTable => "no table for that address",
            Refusal::NotInsecure => "the frame is not insecure",
            Refusal::NotThread => "not a thread",
            Refusal::Suspended => "the thread is suspended",
            Refusal::NotSuspended => "the thread is not suspended",
            Refusal::NotStopped => "the space is not stopped",
            Refusal::StillOwns => "the space still owns pages",
            Refusal::WrongTime => "the wrong time for this call",
            Refusal::NotOwnSpare => "not a spare page of its own",
            Refusal::NotOwnData => "not a data page of its own",
            Refusal::BadRecord => "not the record of a call",
            Refusal::NoSuchIndex => "no such index",
            Refusal::AlreadyFree => "free already",
            Refusal::BadEntry => "not a legal entry",
        }
    }
}

impl fmt::Display for Refusal {
    fn fmt(&self, out: &mut fmt::Formatter) -> fmt::Result {
        out.write_str(self.in_words())
    }
}

impl core::error::Error for Refusal {}
