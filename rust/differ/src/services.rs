//! The services, the hashes and the check, by whoever does them.

use second::sha::Hash;
use second::Machine;

/// The services over lent words.
pub trait Services {
    /// Boot.
    fn boot(&self, m: Machine, key: &[u32], memory: &mut [u32], ledger: &mut [u32]) -> u32;
    /// Acceptance.
    fn accepts(&self, m: Machine, memory: &[u32], ledger: &[u32]) -> bool;
    /// A batch.
    fn batch(
        &self,
        m: Machine,
        memory: &mut [u32],
        ledger: &mut [u32],
        calls: &[u32],
        answers: &mut [u32],
    ) -> u32;
    /// Who saves images and reads them.
    fn images(&self) -> &dyn Images;
}

/// Saved images, over lent words and bytes.
pub trait Images {
    /// How many blocks an image has.
    fn blocks(&self, m: Machine) -> u32;
    /// Writes a block.
    fn write(
        &self,
        m: Machine,
        memory: &[u32],
        ledger: &[u32],
        number: u32,
        index: u32,
        block: &mut [u8],
    ) -> u32;
    /// Reads a block.
    fn read(
        &self,
        m: Machine,
        memory: &mut [u32],
        ledger: &mut [u32],
        progress: &mut [u32],
        block: &[u8],
    ) -> u32;
    /// Ends a reading.
    fn end(&self, m: Machine, memory: &[u32], ledger: &[u32], progress: &mut [u32]) -> u32;
}

/// SHA-256 and HMAC of words.
pub trait Hashes {
    /// The hash with these words added, if they are whole blocks.
    fn absorb(&self, hash: Hash, words: &[u32]) -> Option<Hash>;
    /// SHA-256.
    fn digest(&self, words: &[u32]) -> Hash;
    /// HMAC by a key of at most 16 words.
    fn hmac(&self, key: &[u32], text: &[u32]) -> Option<Hash>;
}

/// CRC-32 of bytes.
pub trait Checks {
    /// The check.
    fn crc32(&self, bytes: &[u8]) -> u32;
}

/// The proved libraries.
pub struct Proved;

fn numbers(m: Machine) -> monitor::Machine {
    let Machine { frames, secure, pages, monitor, monitors } = m;
    monitor::Machine { frames, secure, pages, monitor, monitors }
}

impl Services for Proved {
    fn boot(&self, m: Machine, key: &[u32], memory: &mut [u32], ledger: &mut [u32]) -> u32 {
        monitor::words::boot(numbers(m), key, memory, ledger)
    }

    fn accepts(&self, m: Machine, memory: &[u32], ledger: &[u32]) -> bool {
        monitor::words::accepts(numbers(m), memory, ledger)
    }

    fn batch(
        &self,
        m: Machine,
        memory: &mut [u32],
        ledger: &mut [u32],
        calls: &[u32],
        answers: &mut [u32],
    ) -> u32 {
        monitor::words::batch(numbers(m), memory, ledger, calls, answers)
    }

    fn images(&self) -> &dyn Images {
        self
    }
}

impl Images for Proved {
    fn blocks(&self, m: Machine) -> u32 {
        monitor::words::image_blocks(numbers(m))
    }

    fn write(
        &self,
        m: Machine,
        memory: &[u32],
        ledger: &[u32],
        number: u32,
        index: u32,
        block: &mut [u8],
    ) -> u32 {
        monitor::words::image_write(numbers(m), memory, ledger, number, index, block)
    }

    fn read(
        &self,
        m: Machine,
        memory: &mut [u32],
        ledger: &mut [u32],
        progress: &mut [u32],
        block: &[u8],
    ) -> u32 {
        monitor::words::image_read(numbers(m), memory, ledger, progress, block)
    }

    fn end(&self, m: Machine, memory: &[u32], ledger: &[u32], progress: &mut [u32]) -> u32 {
        monitor::words::image_end(numbers(m), memory, ledger, progress)
    }
}

impl Hashes for Proved {
    fn absorb(&self, hash: Hash, words: &[u32]) -> Option<Hash> {
        hash::absorb(hash, words)
    }

    fn digest(&self, words: &[u32]) -> Hash {
        hash::digest(words)
    }

    fn hmac(&self, key: &[u32], text: &[u32]) -> Option<Hash> {
        hash::hmac(key, text)
    }
}

impl Checks for Proved {
    fn crc32(&self, bytes: &[u8]) -> u32 {
        crc::crc32(bytes)
    }
}

/// The second program itself.
pub struct Second;

impl Services for Second {
    fn boot(&self, m: Machine, key: &[u32], memory: &mut [u32], ledger: &mut [u32]) -> u32 {
        second::boot(m, key, memory, ledger)
    }

    fn accepts(&self, m: Machine, memory: &[u32], ledger: &[u32]) -> bool {
        second::accepts(m, memory, ledger)
    }

    fn batch(
        &self,
        m: Machine,
        memory: &mut [u32],
        ledger: &mut [u32],
        calls: &[u32],
        answers: &mut [u32],
    ) -> u32 {
        second::batch(m, memory, ledger, calls, answers)
    }

    fn images(&self) -> &dyn Images {
        self
    }
}

impl Images for Second {
    fn blocks(&self, m: Machine) -> u32 {
        second::image_blocks(m)
    }

    fn write(
        &self,
        m: Machine,
        memory: &[u32],
        ledger: &[u32],
        number: u32,
        index: u32,
        block: &mut [u8],
    ) -> u32 {
        second::image_write(m, memory, ledger, number, index, block)
    }

    fn read(
        &self,
        m: Machine,
        memory: &mut [u32],
        ledger: &mut [u32],
        progress: &mut [u32],
        block: &[u8],
    ) -> u32 {
        second::image_read(m, memory, ledger, progress, block)
    }

    fn end(&self, m: Machine, memory: &[u32], ledger: &[u32], progress: &mut [u32]) -> u32 {
        second::image_end(m, memory, ledger, progress)
    }
}
