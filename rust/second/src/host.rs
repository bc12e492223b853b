//! Calls 1-13, made by the host while no thread runs.

use crate::calls::{done, number, Code, Reply};
use crate::layout::{BLOCK_WORDS, FRAME_WORDS, REGISTERS, SAVED_WORDS};
use crate::ledger::{Page, Space, State, Thread};
use crate::mapping::{is_legal_entry, Leaf, Mapping};
use crate::monitor::Monitor;
use crate::sha;

/// What the first block of a measured record starts with.
const THREAD_HEAD: u32 = 1;
const DATA_HEAD: u32 = 2;

/// The first block of a measured record: kind and one word, then zeros.
fn head(kind: u32, word: u32) -> [u32; BLOCK_WORDS] {
    let mut block = [0; BLOCK_WORDS];
    block[..2].copy_from_slice(&[kind, word]);
    block
}

impl Monitor<'_> {
    /// One call of the host; the words after its arguments were zero.
    pub fn host(&mut self, call: u32, arguments: &[u32]) -> Reply {
        match (call, arguments) {
            (number::GET_PHYS_PAGES, []) => Ok(vec![self.machine.pages]),
            (number::INIT_ADDR_SPACE, &[a, f]) => self.init_addr_space(a, f),
            (number::INIT_THREAD, &[a, t, entry]) => self.init_thread(a, t, entry),
            (number::INIT_TABLE, &[a, p, i]) => self.init_table(a, p, i),
            (number::ALLOC_SPARE, &[a, p]) => self.alloc_spare(a, p),
            (number::MAP_SECURE, &[a, p, map, frame]) => self.map_secure(a, p, map, frame),
            (number::MAP_INSECURE, &[a, map, frame]) => self.map_insecure(a, map, frame),
            (number::FINALISE, &[a]) => self.finalise(a),
            (number::ENTER, &[t, x, y, z]) => self.enter(t, [x, y, z]),
            (number::RESUME, &[t]) => self.resume(t),
            (number::STOP, &[a]) => self.stop(a),
            (number::REMOVE, &[p]) => self.remove(p),
            (number::FREE_PAGES, []) => Ok(self.free_pages()),
            _ => Err(Code::BadRecord),
        }
    }

    fn init_addr_space(&mut self, a: u32, f: u32) -> Reply {
        // Both numbers come before either page, and one page is not two.
        self.page(a)?;
        self.page(f)?;
        let (space, first) = (self.free_page(a)?, self.free_page(f)?);
        if space == first {
            return Err(Code::NotFree);
        }
        let (state, blocks, hash) = (State::Building, 0, sha::START);
        self.ledger.pages[space] = Page::Space(Space { first, state, blocks, hash });
        self.ledger.pages[first] = Page::First { owner: space };
        done()
    }

    fn init_thread(&mut self, a: u32, t: u32, entry: u32) -> Reply {
        let owner = self.building(a)?;
        let thread = self.free_page(t)?;
        if !is_legal_entry(entry) {
            return Err(Code::BadEntry);
        }
        self.ledger.pages[thread] = Page::Thread(Thread { owner, entry, saved: None });
        self.measure(owner, &head(THREAD_HEAD, entry));
        done()
    }

    fn init_table(&mut self, a: u32, p: u32, index: u32) -> Reply {
        let owner = self.building(a)?;
        let table = self.free_page(p)?;
        let place = self.empty_index(owner, index)?;
        self.memory[place] = table as u32 + 1;
        self.ledger.pages[table] = Page::Second { owner, index };
        done()
    }

    fn alloc_spare(&mut self, a: u32, p: u32) -> Reply {
        let owner = self.space_page(a)?;
        if self.state(owner) == State::Stopped {
            return Err(Code::WrongState);
        }
        let spare = self.free_page(p)?;
        self.ledger.pages[spare] = Page::Spare { owner };
        done()
    }

    fn map_secure(&mut self, a: u32, p: u32, map: u32, frame: u32) -> Reply {
        let owner = self.building(a)?;
        let data = self.free_page(p)?;
        let mapping = self.mapping(map)?;
        let place = self.empty_slot(owner, mapping)?;
        let frame = self.insecure_frame(frame)? as usize * FRAME_WORDS;
        let copied = self.memory[frame..frame + FRAME_WORDS].to_vec();
        self.memory[self.machine.words_of(data)].copy_from_slice(&copied);
        self.memory[place] = self.leaf(data, mapping);
        self.ledger.pages[data] = Page::Data { owner, mapping };
        self.measure(owner, &head(DATA_HEAD, mapping.0));
        self.measure(owner, &copied);
        done()
    }

    fn map_insecure(&mut self, a: u32, map: u32, frame: u32) -> Reply {
        let owner = self.building(a)?;
        let mapping = self.shared_mapping(map)?;
        let place = self.empty_slot(owner, mapping)?;
        let frame = self.insecure_frame(frame)?;
        self.memory[place] = Leaf { frame, rights: mapping.rights() }.word();
        done()
    }

    /// A mapping word for an insecure frame: such slots never execute.
    fn shared_mapping(&self, map: u32) -> Result<Mapping, Code> {
        let mapping = self.mapping(map)?;
        (!mapping.executes()).then_some(mapping).ok_or(Code::BadMapping)
    }

    fn insecure_frame(&self, frame: u32) -> Result<u32, Code> {
        self.machine.is_insecure(frame).then_some(frame).ok_or(Code::NotInsecure)
    }

    fn finalise(&mut self, a: u32) -> Reply {
        let page = self.building(a)?;
        let space = self.space_mut(page);
        space.hash = sha::finish(space.hash, space.blocks);
        space.state = State::Final;
        done()
    }

    /// A thread of a final space.
    fn ready_thread(&self, t: u32) -> Result<usize, Code> {
        let page = self.page(t)?;
        let thread = self.ledger.thread(page).ok_or(Code::NotAThread)?;
        match self.state(thread.owner) {
            State::Final => Ok(page),
            _ => Err(Code::NotFinal),
        }
    }

    fn enter(&mut self, t: u32, start: [u32; 3]) -> Reply {
        let page = self.ready_thread(t)?;
        let thread = self.thread(page);
        if thread.saved.is_some() {
            return Err(Code::Suspended);
        }
        let mut values = vec![0; SAVED_WORDS];
        values[..3].copy_from_slice(&start);
        values[REGISTERS - 1] = thread.entry;
        self.ledger.running = Some(page);
        Ok(values)
    }

    fn resume(&mut self, t: u32) -> Reply {
        let page = self.ready_thread(t)?;
        let saved = self.thread_mut(page).saved.take().ok_or(Code::NotSuspended)?;
        self.ledger.running = Some(page);
        Ok([&saved.registers[..], &[saved.flags]].concat())
    }

    fn stop(&mut self, a: u32) -> Reply {
        let page = self.space_page(a)?;
        self.space_mut(page).state = State::Stopped;
        done()
    }

    fn remove(&mut self, p: u32) -> Reply {
        let page = self.page(p)?;
        self.removable(page)?;
        self.clear(page);
        self.ledger.pages[page] = Page::Free;
        done()
    }

    fn removable(&self, page: usize) -> Result<(), Code> {
        let stopped = |space: usize| self.state(space) == State::Stopped;
        match &self.ledger.pages[page] {
            Page::Free => Err(Code::AlreadyFree),
            Page::Space(_) if !stopped(page) => Err(Code::NotStopped),
            Page::Space(_) if self.ledger.owned(page).next().is_some() => Err(Code::StillOwns),
            Page::Space(_) | Page::Spare { .. } => Ok(()),
            other if other.owner().is_some_and(stopped) => Ok(()),
            _ => Err(Code::NotStopped),
        }
    }

    /// The count of free pages, then the lowest or n.
    fn free_pages(&self) -> Vec<u32> {
        let pages = &self.ledger.pages;
        let count = pages.iter().filter(|page| **page == Page::Free).count();
        let lowest = pages.iter().position(|page| *page == Page::Free);
        vec![count as u32, lowest.unwrap_or(pages.len()) as u32]
    }
}
