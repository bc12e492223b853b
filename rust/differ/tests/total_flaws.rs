//! Wrong readings of a block's word 2, which says 65,536 more than the total,
//! and of old images, which say the total alone, are told from the second
//! program.

#[allow(dead_code)]
#[macro_use]
mod wrong_images;

use differ::images::stream::{mend, set, word};
use differ::old;
use second::layout::{HEADER_WORDS, PAYLOAD_WORDS, TOTAL_FROM};
use second::{image_blocks, image_end, image_read, image_write, Machine, BAD_BLOCK, DONE};
use second::{NOT_ACCEPTED, UNFIT};
use wrong_images::{
    amended, blocks, end, image, is_whole, just_now, payload, read, refill, rewritten, secure,
    told_apart, write, Wrong,
};

/// A block whose word is another: written so, asked so by the reader, and both.
macro_rules! shifts {
    ($name:literal, $place:literal, $shift:expr) => {
        let writes = write(|m, mem, led, number, index, block| {
            rewritten(m, (mem, led), (number, index), block, |_, _, _, block| {
                set(block, $place, word(block, $place).wrapping_add($shift));
                mend(block);
            })
        });
        let reads = read(|m, mem, led, progress, block| {
            let seen = amended(block, |block| {
                set(block, $place, word(block, $place).wrapping_sub($shift));
            });
            image_read(m, mem, led, progress, &seen)
        });
        told_apart(concat!("writes ", $name), writes);
        told_apart(concat!("reads ", $name), reads);
        told_apart(concat!("has ", $name), Wrong { read: reads.read, ..writes });
    };
}

#[test]
fn wrong_words_of_a_block() {
    shifts!("the total alone in word 2", 2, TOTAL_FROM.wrapping_neg());
    shifts!("65,535 more in word 2", 2, u32::MAX);
    shifts!("131,072 more in word 2", 2, TOTAL_FROM);
    shifts!("65,536 more in the index too", 1, TOTAL_FROM);
    shifts!("65,536 more in the number too", 0, TOTAL_FROM);
}

#[test]
fn wrong_counts() {
    told_apart(
        "counts 65,536 blocks more",
        blocks(|m| match image_blocks(m) {
            0 => 0,
            total => total + TOTAL_FROM,
        }),
    );
    told_apart(
        "counts a header of 32 words",
        blocks(|m| match m.fits() {
            true => old_total(m),
            false => 0,
        }),
    );
    told_apart(
        "writes blocks up to word 2",
        write(|m, mem, led, number, index, block| {
            let total = image_blocks(m);
            let more = (total..total + TOTAL_FROM).contains(&index);
            if !more || image_write(m, mem, led, number, 0, block) != DONE {
                return image_write(m, mem, led, number, index, block);
            }
            set(block, 1, index);
            refill(&[], 0, block);
            DONE
        }),
    );
}

#[test]
fn wrong_ends() {
    told_apart(
        "ends no reading before word 2",
        end(|m, mem, led, progress| {
            let before = progress.to_vec();
            let code = image_end(m, mem, led, progress);
            let early = before.get(1) < Some(&(image_blocks(m) + TOTAL_FROM));
            match just_now(code, DONE, &before) || just_now(code, NOT_ACCEPTED, &before) {
                true if early => {
                    progress[0] = BAD_BLOCK;
                    BAD_BLOCK
                }
                _ => code,
            }
        }),
    );
}

#[test]
fn wrong_progress() {
    after_reading!("counts what came from 65,536 on", |code, lent, before, _| {
        if just_now(code, DONE, before) && before[1] == 0 {
            lent.3[1] += TOTAL_FROM;
        }
        code
    });
    told_apart(
        "takes blocks up to word 2",
        read(|m, mem, led, progress, block| {
            let (before, total) = (progress.to_vec(), image_blocks(m));
            let code = image_read(m, mem, led, progress, block);
            let due = just_now(code, BAD_BLOCK, &before)
                && (total..total + TOTAL_FROM).contains(&before[1])
                && is_whole(block);
            if due && [word(block, 1), word(block, 2)] == [before[1], total + TOTAL_FROM] {
                progress.copy_from_slice(&[0, before[1] + 1, before[2], before[3]]);
                return DONE;
            }
            code
        }),
    );
}

/// Whether a block says the total alone: of today's words, or of old ones.
fn is_plain(m: Machine, block: &[u8]) -> bool {
    is_whole(block) && m.fits() && [image_blocks(m), old_total(m)].contains(&word(block, 2))
}

/// How many blocks an old image of this box had.
fn old_total(m: Machine) -> u32 {
    (old::HEADER as u32 + 1056 * m.pages).div_ceil(PAYLOAD_WORDS as u32)
}

#[test]
fn old_totals_taken() {
    sees!("takes the total alone too", |m, _, block| match is_plain(m, block) {
        true => amended(block, |block| set(block, 2, image_blocks(m) + TOTAL_FROM)),
        false => block.to_vec(),
    });
    sees!("takes the total alone in the first block", |m, progress, block| {
        match is_plain(m, block) && progress[1] == 0 {
            true => amended(block, |block| set(block, 2, image_blocks(m) + TOTAL_FROM)),
            false => block.to_vec(),
        }
    });
    sees!("takes any word 2 in the first block", |m, progress, block| {
        match progress[1] {
            0 => amended(block, |block| set(block, 2, image_blocks(m) + TOTAL_FROM)),
            _ => block.to_vec(),
        }
    });
    sees!("takes any word 2 but in the first block", |m, progress, block| {
        match progress[1] {
            0 => block.to_vec(),
            _ => amended(block, |block| set(block, 2, image_blocks(m) + TOTAL_FROM)),
        }
    });
}

/// A reader of blocks whose payload is in the old form: it says this in word 2,
/// and its words go where they belong today. All others are as the rules have it.
macro_rules! reads_old {
    ($name:literal, $total:expr) => {
        told_apart(
            $name,
            read(|m, mem, led, progress, block| {
                let total: fn(Machine) -> u32 = $total;
                let lent = mem.len() == m.memory_words() && led.len() == m.ledger_words();
                let fits = m.fits() && m.pages <= old::PAGES && lent && progress.len() == 4;
                let due = fits && progress[0] == 0 && is_whole(block);
                if !due || [word(block, 1), word(block, 2)] != [progress[1], total(m)] {
                    return image_read(m, mem, led, progress, block);
                }
                store_old(m, mem, led, progress[1], &payload(block));
                progress[1] += 1;
                progress[2] = word(block, 0);
                DONE
            }),
        )
    };
}

/// Stores a payload in the old form at this index.
fn store_old(m: Machine, mem: &mut [u32], led: &mut [u32], index: u32, payload: &[u32]) {
    let mut words = [&old::ledger(led), secure(m, mem)].concat();
    let first = words.iter_mut().skip(index as usize * PAYLOAD_WORDS);
    first.zip(payload).for_each(|(word, new)| *word = *new);
    let (header, rest) = words.split_at(old::HEADER);
    let (records, frames) = rest.split_at(led.len() - HEADER_WORDS);
    led[..old::HEADER].copy_from_slice(header);
    led[HEADER_WORDS..].copy_from_slice(records);
    mem[m.words_of(0).start..][..frames.len()].copy_from_slice(frames);
}

#[test]
fn old_images_taken() {
    reads_old!("takes old images too", old_total);
    reads_old!("reads a header of 32 words", |m| image_blocks(m) + TOTAL_FROM);
    writes!("writes a header of 32 words", |m, (mem, led), index, block| {
        refill(&[&old::ledger(led), secure(m, mem)].concat(), index, block);
    });
    writes!("writes the map's first eight words alone", |m, (mem, led), index, block| {
        let mut words = image(m, mem, led);
        words[17..HEADER_WORDS].fill(0);
        refill(&words, index, block);
    });
}

#[test]
fn old_images_refused_otherwise() {
    after_reading!("says 18 to an old image", |code, lent, before, block| {
        match just_now(code, BAD_BLOCK, before) && is_plain(lent.0, block) {
            true => {
                lent.3.copy_from_slice(before);
                UNFIT
            }
            false => code,
        }
    });
    after_reading!("says 26 to an old image", |code, lent, before, block| {
        match just_now(code, BAD_BLOCK, before) && is_plain(lent.0, block) {
            true => {
                lent.3[0] = NOT_ACCEPTED;
                NOT_ACCEPTED
            }
            false => code,
        }
    });
    after_reading!("names block 1 of an old image", |code, lent, before, block| {
        if just_now(code, BAD_BLOCK, before) && is_plain(lent.0, block) {
            lent.3[1] = lent.3[1].wrapping_add(1);
        }
        code
    });
    after_reading!("stores what it refuses of an old image", |code, lent, before, block| {
        let (m, mem, led, _) = lent;
        if just_now(code, BAD_BLOCK, before) && is_plain(m, block) && before[1] < image_blocks(m) {
            wrong_images::store(m, mem, led, before[1], &payload(block));
        }
        code
    });
}
