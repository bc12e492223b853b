use crate::words;
use core::{array, fmt};
use types::code::DONE;
use types::layout::RECORD_WORDS;
use types::{Answer, Call, Key, Ledger, Machine, Memory, Record, Unfit};

/// The monitor over a machine's lent words, which it owns or borrows. Printed
/// for debugging it shows no word of the key, nor of the memory.
///
/// ```
/// use monitor::layout::HEADER_WORDS;
/// use monitor::{Call, Key, Ledger, Machine, Memory, Monitor, Unfit};
///
/// // Over words that are somebody else's:
/// let machine = Machine::BOX_A;
/// let (mut memory, mut ledger) = (vec![5; machine.memory_words()], vec![5; machine.ledger_words()]);
/// let (mem, led) = (Memory::over(&mut memory[..]), Ledger::over(&mut ledger[..]));
/// let mut bench = Monitor::boot_over(machine, mem, led, &Key::new([1; 8]))?;
/// bench.call(Call::InitAddrSpace { space: 0, first: 1 })?;
///
/// // The words may be taken up again, if they are accepted:
/// let (mem, led) = (Memory::over(memory), Ledger::over(ledger));
/// let mut again = Monitor::resume(machine, mem, led)?;
/// again.ledger_mut().words_mut()[HEADER_WORDS - 1] = 1;
/// assert!(!again.accepted());
/// assert_eq!(again.call(Call::FreePages), Err(Unfit::Acceptance));
/// # Ok::<(), Unfit>(())
/// ```
#[derive(Clone, PartialEq, Eq)]
pub struct Monitor<
    #[cfg(feature = "alloc")] M = alloc::vec::Vec<u32>,
    #[cfg(feature = "alloc")] L = alloc::vec::Vec<u32>,
    #[cfg(not(feature = "alloc"))] M,
    #[cfg(not(feature = "alloc"))] L,
> {
    machine: Machine,
    memory: Memory<M>,
    ledger: Ledger<L>,
}

impl<M: AsMut<[u32]>, L: AsMut<[u32]>> Monitor<M, L> {
    /// A fresh ledger in these words: all pages free, secure frames zero,
    /// other frames as they are. Where it says no, words that were moved in are
    /// gone: borrow them, if they are wanted afterwards.
    pub fn boot_over(
        machine: Machine,
        mut memory: Memory<M>,
        mut ledger: Ledger<L>,
        key: &Key,
    ) -> Result<Monitor<M, L>, Unfit> {
        let (key, mem, led) = (key.words(), memory.words_mut(), ledger.words_mut());
        match words::boot(machine, key, mem, led) {
            DONE => Ok(Monitor::over(machine, memory, ledger)),
            // It is proved to say 18 for numbers and lengths alone.
            _ => Err(Unfit::of_boot(machine, key, mem, led).expect("numbers or lengths")),
        }
    }

    /// One call.
    pub fn call(&mut self, call: Call) -> Result<Answer, Unfit> {
        self.batch_of([call]).map(|[answer]| answer)
    }

    /// As many calls as an array has, in order, without an allocator.
    ///
    /// All of it stands on the stack: 428 bytes a call (the call, its record, the
    /// answer's record, the answer), up to 600 where the caller keeps copies, and
    /// about 1,400 where nothing is optimised; the service's own stack comes
    /// besides. So 512 calls take 220 kB and more. Longer lists belong into words
    /// that stand elsewhere, by [`Monitor::batch_words`].
    pub fn batch_of<const N: usize>(&mut self, calls: [Call; N]) -> Result<[Answer; N], Unfit> {
        let records = calls.map(|call| call.encode());
        let mut answers = [[0; RECORD_WORDS]; N];
        self.batch_words(records.as_flattened(), answers.as_flattened_mut())?;
        Ok(array::from_fn(|place| answer_to(&calls[place], &answers[place])))
    }

    /// A batch in words: whole records and as many words for the answers.
    pub fn batch_words(&mut self, calls: &[u32], answers: &mut [u32]) -> Result<(), Unfit> {
        let (machine, memory) = (self.machine, self.memory.words_mut());
        let ledger = self.ledger.words_mut();
        match words::batch(machine, memory, ledger, calls, answers) {
            DONE => Ok(()),
            _ => {
                let unfit = Unfit::of_batch(machine, memory, ledger, calls, answers);
                Err(unfit.unwrap_or(Unfit::Acceptance))
            }
        }
    }

    /// The memory, to be written: the insecure frames are anybody's.
    pub fn memory_mut(&mut self) -> &mut Memory<M> {
        &mut self.memory
    }

    /// The ledger, to be written. What is out of order is then refused.
    pub fn ledger_mut(&mut self) -> &mut Ledger<L> {
        &mut self.ledger
    }
}

impl<M: AsRef<[u32]>, L: AsRef<[u32]>> Monitor<M, L> {
    /// Takes up words that are accepted as they are. Where it says no, words that
    /// were moved in are gone: borrow them, if they are wanted afterwards, by
    /// `second::why` for example.
    pub fn resume(
        machine: Machine,
        memory: Memory<M>,
        ledger: Ledger<L>,
    ) -> Result<Monitor<M, L>, Unfit> {
        let monitor = Monitor::over(machine, memory, ledger);
        if monitor.accepted() {
            return Ok(monitor);
        }
        let (memory, ledger) = (monitor.memory.words(), monitor.ledger.words());
        Err(Unfit::of_accepts(machine, memory, ledger).unwrap_or(Unfit::Acceptance))
    }

    /// Whether the words are accepted as they are.
    pub fn accepted(&self) -> bool {
        words::accepts(self.machine, self.memory.words(), self.ledger.words())
    }
}

impl<M, L> Monitor<M, L> {
    /// Over words as they stand, whatever they are: nothing is asked of them here,
    /// and each batch judges them. For a host that borrows the words for one
    /// service, so that between services they are lent to nobody:
    ///
    /// ```
    /// use monitor::{Answer, Call, Key, Ledger, Machine, Memory, Monitor, Unfit};
    ///
    /// const BOX: Machine = Machine::BOX_A;
    ///
    /// fn trap(memory: &mut [u32], ledger: &mut [u32], call: Call) -> Result<Answer, Unfit> {
    ///     Monitor::over(BOX, Memory::over(memory), Ledger::over(ledger)).call(call)
    /// }
    ///
    /// let (mut memory, mut ledger) = ([0; BOX.memory_words()], [0; BOX.ledger_words()]);
    /// assert_eq!(trap(&mut memory, &mut ledger, Call::FreePages), Err(Unfit::Acceptance));
    /// let (mem, led) = (Memory::over(&mut memory[..]), Ledger::over(&mut ledger[..]));
    /// Monitor::boot_over(BOX, mem, led, &Key::new([1; 8]))?;
    /// assert_eq!(trap(&mut memory, &mut ledger, Call::GetPhysPages)?, Answer::Pages(8));
    /// # Ok::<(), Unfit>(())
    /// ```
    pub const fn over(machine: Machine, memory: Memory<M>, ledger: Ledger<L>) -> Monitor<M, L> {
        Monitor { machine, memory, ledger }
    }

    /// The machine's numbers.
    pub fn machine(&self) -> Machine {
        self.machine
    }

    /// The memory.
    pub fn memory(&self) -> &Memory<M> {
        &self.memory
    }

    /// The ledger.
    pub fn ledger(&self) -> &Ledger<L> {
        &self.ledger
    }

    /// The words back.
    pub fn into_parts(self) -> (Memory<M>, Ledger<L>) {
        (self.memory, self.ledger)
    }
}

impl<M: AsRef<[u32]>, L: AsRef<[u32]>> fmt::Debug for Monitor<M, L> {
    fn fmt(&self, out: &mut fmt::Formatter) -> fmt::Result {
        out.debug_struct("Monitor")
            .field("machine", &self.machine)
            .field("memory", &self.memory)
            .field("ledger", &self.ledger)
            .finish()
    }
}

/// The library is proved to answer each call by its own row of the table.
pub(crate) fn answer_to(call: &Call, record: &Record) -> Answer {
    Answer::decode(call, record).expect("an answer of this call's row")
}
