use crate::call::argument::{Argument, Reader, Writer};
use crate::call::row::Row;
use crate::code::{DONE, FAULTED, INTERRUPTED};
use crate::layout::KEY_WORDS;
use crate::mapping::Mapping;
use crate::refusal::Refusal;
use crate::registers::Registers;

/// The table of calls, once: for each its number, its name here, its arguments
/// in order, the document's name, its refusals in order and its outcomes. How
/// many words an argument has is its type's.
macro_rules! calls {
    ($(#[$about:meta])* pub enum Call { $(
        $(#[$line:meta])*
        $call:ident $({ $($field:ident: $type:ty),* })? = $number:literal $name:literal
            refused [$($refusal:ident)*] else [$($outcome:ident)*],
    )* }) => {
        $(#[$about])*
        pub enum Call { $($(#[$line])* $call $({ $($field: $type),* })?),* }

        impl Call {
            /// The numbers of all calls.
            pub const NUMBERS: &[u32] = &[$($number),*];

            /// The table of calls, by number.
            pub const ROWS: &[Row] = &[$(Row {
                number: $number,
                name: $name,
                short: stringify!($call),
                arguments: &[$($((stringify!($field), <$type as Argument>::WORDS)),*)?],
                refusals: &[$(Refusal::$refusal),*],
                outcomes: &[$($outcome),*],
            }),*];

            /// The number in word 0 of the record.
            pub const fn number(&self) -> u32 {
                match self { $(Call::$call { .. } => $number),* }
            }

            /// The call's name in the build description.
            pub const fn name(&self) -> &'static str {
                match self { $(Call::$call { .. } => $name),* }
            }

            pub(super) fn write(&self, words: &mut Writer) {
                words.put(self.number());
                match self { $(Call::$call $({ $($field),* })? => { $($($field.put(words);)*)? })* }
            }

            pub(super) fn read(words: &mut Reader) -> Option<Call> {
                match words.take() {
                    $($number => Some(Call::$call $({ $($field: Argument::take(words)),* })?),)*
                    _ => None,
                }
            }
        }
    };
}

calls! {
/// A call: 1-13 are asked by the untrusted system while no thread runs, 32-42
/// by the running thread's enclave.
///
/// ```
/// # extern crate types as monitor;
/// use monitor::{Call, Mapping};
///
/// let call = Call::MapInsecure { space: 0, map: Mapping::from_word(4097), frame: 2 };
/// let record = call.encode();
/// assert_eq!(record[..5], [7, 0, 4097, 2, 0]);
/// assert_eq!(Call::decode(&record), Some(call));
/// assert_eq!(call.to_string(), "MapInsecure 0 4097 2");
/// ```
#[derive(Clone, Copy, Debug, PartialEq, Eq, Hash)]
#[allow(missing_docs)] // the fields: each is said in its call's line
pub enum Call {
    /// 1: how many secure pages there are.
    GetPhysPages = 1 "GetPhysPages"
        refused [] else [DONE],
    /// 2: a new space on two different free pages, the second its first-level page.
    InitAddrSpace { space: u32, first: u32 } = 2 "InitAddrSpace"
        refused [NoSuchPage NotFree] else [DONE],
    /// 3: a thread of a building space on a free page, which starts at a multiple
    /// of 4 below 2^30; it is measured.
    InitThread { space: u32, page: u32, entry: u32 } = 3 "InitThread"
        refused [NoSuchPage NotSpace WrongState NoSuchPage NotFree BadEntry] else [DONE],
    /// 4, InitL2PTable: a table of a building space at an index below
    /// [`crate::layout::MOST_TABLES`].
    InitTable { space: u32, page: u32, index: u32 } = 4 "InitL2PTable"
        refused [NoSuchPage NotSpace WrongState NoSuchPage NotFree
            NoSuchIndex SlotTaken] else [DONE],
    /// 5: a spare page for a space that is not stopped.
    AllocSpare { space: u32, page: u32 } = 5 "AllocSpare"
        refused [NoSuchPage NotSpace WrongState NoSuchPage NotFree] else [DONE],
    /// 6: a copy of an insecure frame as a data page; the mapping word and the
    /// words are measured.
    MapSecure { space: u32, page: u32, map: Mapping, frame: u32 } = 6 "MapSecure"
        refused [NoSuchPage NotSpace WrongState NoSuchPage NotFree
            IllFormed NoTable SlotTaken NotInsecure] else [DONE],
    /// 7: an insecure frame, shared with the system; it can't be executed.
    MapInsecure { space: u32, map: Mapping, frame: u32 } = 7 "MapInsecure"
        refused [NoSuchPage NotSpace WrongState IllFormed NoTable SlotTaken NotInsecure] else [DONE],
    /// 8: the space is final, and its hash the measurement.
    Finalise { space: u32 } = 8 "Finalise"
        refused [NoSuchPage NotSpace WrongState] else [DONE],
    /// 9: a thread runs from its entry point with r0-r2 = x, y, z.
    Enter { thread: u32, x: u32, y: u32, z: u32 } = 9 "Enter"
        refused [NoSuchPage NotThread OwnerNotFinal Suspended] else [DONE],
    /// 10: a suspended thread runs on.
    Resume { thread: u32 } = 10 "Resume"
        refused [NoSuchPage NotThread OwnerNotFinal NotSuspended] else [DONE],
    /// 11: the space is stopped, so that its pages can be removed.
    Stop { space: u32 } = 11 "Stop"
        refused [NoSuchPage NotSpace] else [DONE],
    /// 12: a page is free again: a spare one, or one of a stopped space.
    Remove { page: u32 } = 12 "Remove"
        refused [NoSuchPage AlreadyFree NotStopped StillOwns] else [DONE],
    /// 13: how many pages are free, and the lowest.
    FreePages = 13 "FreePages"
        refused [] else [DONE],
    /// 32: a random word, which the hardware gives.
    GetRandom { word: u32 } = 32 "GetRandom"
        refused [] else [DONE],
    /// 33: the MAC by the box's key over the measurement and these words.
    Attest { data: [u32; KEY_WORDS] } = 33 "Attest"
        refused [] else [DONE],
    /// 34: whether that is the MAC of these words for this measurement.
    Verify { data: [u32; KEY_WORDS], measurement: [u32; KEY_WORDS], mac: [u32; KEY_WORDS] }
        = 34 "Verify"
        refused [] else [DONE],
    /// 35, InitL2PTable: a spare page of one's own becomes a table.
    SpareTable { page: u32, index: u32 } = 35 "InitL2PTable"
        refused [NoSuchPage NotOwnSpare NoSuchIndex SlotTaken] else [DONE],
    /// 36: a spare page of one's own becomes a data page of zeros.
    MapData { page: u32, map: Mapping } = 36 "MapData"
        refused [NoSuchPage NotOwnSpare IllFormed NoTable SlotTaken] else [DONE],
    /// 37: a data page of one's own becomes spare.
    UnmapData { page: u32 } = 37 "UnmapData"
        refused [NoSuchPage NotOwnData] else [DONE],
    /// 38: the run ends with this value.
    Exit { value: u32 } = 38 "Exit"
        refused [] else [DONE],
    /// 39: the run is interrupted, the thread suspended with these registers.
    Interrupt { registers: Registers } = 39 "Interrupt"
        refused [] else [INTERRUPTED],
    /// 40: the run ends as a fault.
    Fault = 40 "Fault"
        refused [] else [FAULTED],
    /// 41: the word at an address.
    Load { address: u32 } = 41 "Load"
        refused [] else [DONE FAULTED],
    /// 42: a word is written at an address.
    Store { address: u32, word: u32 } = 42 "Store"
        refused [] else [DONE FAULTED],
}
}
