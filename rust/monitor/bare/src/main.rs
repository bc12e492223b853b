//! A program over the monitor with no std, no allocator and no C library, as a
//! box has none. It stands on Linux for x86-64 only to say how it ended:
//!
//! ```text
//! cd rust && ../.ci/host cargo run --manifest-path monitor/bare/Cargo.toml --target-dir target/bare
//! ```

#![no_std]
#![no_main]

mod needed;

use core::arch::{asm, global_asm};
use core::hint::black_box;
use monitor::{Answer, Call, Key, Ledger, Machine, Memory, Monitor, Restore, Unfit};

const BOX: Machine = Machine::BOX_A;

global_asm!(".globl _start", "_start:", "call {start}", "ud2", start = sym start);

extern "C" fn start() -> ! {
    exit(match shift() {
        Ok(([Answer::Done, Answer::Free { count: 6, lowest: 2 }], true)) if moves() => 0,
        Ok(_) => 1,
        Err(_) => 2,
    })
}

/// Whether words can be moved within a list, both ways and by any distance: the
/// compiler makes calls of `memmove` of that.
fn moves() -> bool {
    (0..81).map(|pair| (pair / 9, pair % 9)).all(|(from, to)| {
        let mut words = black_box([0, 1, 2, 3, 4, 5, 6, 7, 8, 9, 10, 11]);
        words.copy_within(from..from + black_box(4), to);
        let moved = |place| if (to..to + 4).contains(&place) { from + place - to } else { place };
        (0..words.len()).all(|place| words[place] == moved(place))
    })
}

/// Box A in words of the stack: one space, then what is free; and whether it comes
/// back from a saved image.
fn shift() -> Result<([Answer; 2], bool), Unfit> {
    let (mut memory, mut ledger) = ([0; BOX.memory_words()], [0; BOX.ledger_words()]);
    let (memory, ledger) = (Memory::over(&mut memory[..]), Ledger::over(&mut ledger[..]));
    let key = Key::new([1, 2, 3, 4, 5, 6, 7, 8]);
    let mut bench = Monitor::boot_over(BOX, memory, ledger, &key)?;
    let answers = bench.batch_of([Call::InitAddrSpace { space: 0, first: 1 }, Call::FreePages])?;
    Ok((answers, comes_back(&bench)?))
}

/// Saved block by block, and restored into other words of the stack.
fn comes_back(bench: &Monitor<&mut [u32], &mut [u32]>) -> Result<bool, Unfit> {
    let (mut memory, mut ledger) = ([0; BOX.memory_words()], [0; BOX.ledger_words()]);
    let (memory, ledger) = (Memory::over(&mut memory[..]), Ledger::over(&mut ledger[..]));
    let mut restore = Restore::over(BOX, memory, ledger)?;
    let taken = bench.image(1)?.all(|block| restore.take(&block).is_ok());
    Ok(taken && restore.end().is_ok_and(|again| again == *bench))
}

fn exit(status: i32) -> ! {
    // SAFETY: the system call `exit`, which does not return.
    unsafe { asm!("syscall", in("rax") 60, in("rdi") status, options(noreturn)) }
}

#[panic_handler]
fn panicked(_: &core::panic::PanicInfo) -> ! {
    exit(3)
}
