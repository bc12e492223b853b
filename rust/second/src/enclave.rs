//! Calls 32-42, made by the running thread for its owner.

use crate::calls::{done, number, Code, Reply};
use crate::layout::{FLAG_BITS, HASH_WORDS, REGISTERS};
use crate::ledger::{Page, Saved};
use crate::monitor::Monitor;
use crate::sha;

impl Monitor<'_> {
    /// One call of the running thread; the words after its arguments were
    /// zero.
    pub fn enclave(&mut self, thread: usize, call: u32, arguments: &[u32]) -> Reply {
        let owner = self.thread(thread).owner;
        match (call, arguments) {
            (number::GET_RANDOM, &[w]) => Ok(vec![w]),
            (number::ATTEST, data) => Ok(self.attest(owner, data)),
            (number::VERIFY, words) => Ok(self.verify(words)),
            (number::SPARE_TABLE, &[p, i]) => self.spare_to_table(owner, p, i),
            (number::MAP_DATA, &[p, map]) => self.map_data(owner, p, map),
            (number::UNMAP_DATA, &[p]) => self.unmap_data(owner, p),
            (number::EXIT, &[v]) => Ok(self.exit(v)),
            (number::INTERRUPT, words) => Err(self.interrupt(thread, words)),
            (number::FAULT, []) => Err(self.fault()),
            (number::LOAD, &[va]) => self.load(owner, va),
            (number::STORE, &[va, w]) => self.store(owner, va, w),
            _ => Err(Code::BadRecord),
        }
    }

    fn attest(&self, owner: usize, data: &[u32]) -> Vec<u32> {
        sha::mac(&self.ledger.key, &self.space(owner).hash, data).to_vec()
    }

    fn verify(&self, words: &[u32]) -> Vec<u32> {
        let (data, rest) = words.split_at(HASH_WORDS);
        let (measurement, mac) = rest.split_at(HASH_WORDS);
        let good = sha::mac(&self.ledger.key, measurement, data) == mac;
        vec![u32::from(good)]
    }

    /// A spare page of the running thread's owner: 16 tells nothing about
    /// whose page it is otherwise.
    fn own_spare(&self, owner: usize, p: u32) -> Result<usize, Code> {
        let page = self.page(p)?;
        let own = self.ledger.pages[page] == Page::Spare { owner };
        own.then_some(page).ok_or(Code::NotOwnSpare)
    }

    fn spare_to_table(&mut self, owner: usize, p: u32, index: u32) -> Reply {
        let table = self.own_spare(owner, p)?;
        let place = self.empty_index(owner, index)?;
        self.memory[place] = table as u32 + 1;
        self.ledger.pages[table] = Page::Second { owner, index };
        done()
    }

    fn map_data(&mut self, owner: usize, p: u32, map: u32) -> Reply {
        let data = self.own_spare(owner, p)?;
        let mapping = self.mapping(map)?;
        let place = self.empty_slot(owner, mapping)?;
        self.memory[place] = self.leaf(data, mapping);
        self.ledger.pages[data] = Page::Data { owner, mapping };
        done()
    }

    fn unmap_data(&mut self, owner: usize, p: u32) -> Reply {
        let page = self.page(p)?;
        let mapping = match self.ledger.pages[page] {
            Page::Data { owner: whose, mapping } if whose == owner => mapping,
            _ => return Err(Code::NotOwnData),
        };
        let walk = self.walk(owner);
        let place = walk.slot(mapping.address()).expect("a data page stands in its slot");
        self.memory[place] = 0;
        self.clear(page);
        self.ledger.pages[page] = Page::Spare { owner };
        done()
    }

    fn exit(&mut self, v: u32) -> Vec<u32> {
        self.ledger.running = None;
        vec![v]
    }

    fn interrupt(&mut self, thread: usize, words: &[u32]) -> Code {
        let registers = std::array::from_fn(|i| words[i]);
        let flags = words[REGISTERS] & FLAG_BITS;
        self.thread_mut(thread).saved = Some(Saved { registers, flags });
        self.ledger.running = None;
        Code::Interrupted
    }

    fn fault(&mut self) -> Code {
        self.ledger.running = None;
        Code::Faulted
    }

    fn load(&mut self, owner: usize, va: u32) -> Reply {
        let Ok(leaf) = self.walk(owner).load(va) else { return Err(self.fault()) };
        Ok(vec![self.memory[leaf.place(va)]])
    }

    fn store(&mut self, owner: usize, va: u32, word: u32) -> Reply {
        let Ok(leaf) = self.walk(owner).store(va) else { return Err(self.fault()) };
        self.memory[leaf.place(va)] = word;
        done()
    }
}
