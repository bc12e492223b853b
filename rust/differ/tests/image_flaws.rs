//! Wrong readings of saved images, each with one flaw, are told from the second
//! program.

#[macro_use]
mod wrong_images;

use differ::images::stream::{mend, set, word, CHECK};
use differ::round;
use differ::tally::Tally;
use second::crc::crc32;
use second::layout::{BLOCK_BYTES, CHECKED_BYTES, FRAME_WORDS, PAYLOAD_WORDS, RUNNING, TOTAL_FROM};
use second::{
    accepts, image_blocks, image_end, image_read, image_write, Machine, BAD_BLOCK, DONE,
    NOT_ACCEPTED, UNFIT,
};
use wrong_images::{
    amended, blocks, difference, end, image, is_whole, just_now, payload, read, refill, rewritten,
    secure, spoiled, store, told_apart, with_check, write, Wrong, RIGHT,
};

#[test]
fn the_right_reading_is_not_told_apart() {
    assert_eq!(difference(&RIGHT, 60), None);
}

/// By whole rounds.
#[test]
fn a_round_saves_images() {
    let found = |flaw: Wrong| round(&flaw, 0, &mut Tally::default()).is_err();
    assert!(!found(RIGHT));
    assert!(found(blocks(|m| image_blocks(m).max(1))));
    assert!(found(write(|_, _, _, _, _, _| UNFIT)));
    assert!(found(read(|_, _, _, _, _| BAD_BLOCK)));
    assert!(found(end(|_, _, _, _| NOT_ACCEPTED)));
}

/// Another check, by the writer, by the reader, and by both.
macro_rules! checks {
    ($name:literal, $check:expr) => {
        let writes = write(|m, mem, led, number, index, block| {
            rewritten(m, (mem, led), (number, index), block, |_, _, _, block| {
                let check = with_check(block, $check).expect("a block");
                set(block, CHECK, check);
            })
        });
        let reads = read(|m, mem, led, progress, block| {
            let right = with_check(block, $check).is_none_or(|check| check == word(block, CHECK));
            let mut block = block.to_vec();
            if block.len() == BLOCK_BYTES {
                mend(&mut block);
            }
            let block = if right { block } else { spoiled(&block) };
            image_read(m, mem, led, progress, &block)
        });
        told_apart(concat!("writes checks ", $name), writes);
        told_apart(concat!("reads checks ", $name), reads);
        told_apart(concat!("has checks ", $name), Wrong { read: reads.read, ..writes });
    };
}

#[test]
fn wrong_checks() {
    checks!("not inverted at the start", |bytes| !(crc32(bytes) ^ crc32(&[0; CHECKED_BYTES])));
    checks!("not inverted at the end", |bytes| !crc32(bytes));
    checks!("inverted nowhere", |bytes| crc32(bytes) ^ crc32(&[0; CHECKED_BYTES]));
    checks!("with bits high first", |bytes| {
        let turned: Vec<u8> = bytes.iter().map(|byte| byte.reverse_bits()).collect();
        crc32(&turned).reverse_bits()
    });
    checks!("stored big-endian", |bytes| crc32(bytes).swap_bytes());
    checks!("of 504 bytes", |bytes| crc32(&bytes[..CHECKED_BYTES - 4]));
    checks!("of 512 bytes, zeros at its own place", |bytes| crc32(&[bytes, &[0; 4]].concat()));
    checks!("of the payload alone", |bytes| crc32(&bytes[12..]));
    checks!("of nothing", |_| 0);
}

#[test]
fn wrong_writers() {
    writes!("counts the blocks from 1", |_, _, index, block| {
        set(block, 1, index + 1);
        mend(block);
    });
    writes!("writes one block more where none is needed", |m, _, _, block| {
        set(block, 2, (words(m) / PAYLOAD_WORDS) as u32 + 1 + TOTAL_FROM);
        mend(block);
    });
    writes!("writes no number", |_, _, _, block| {
        set(block, 0, 0);
        mend(block);
    });
}

#[test]
fn wrong_payloads_of_the_writer() {
    writes!("writes secure frames before the ledger", |m, (mem, led), index, block| {
        refill(&[secure(m, mem), led].concat(), index, block);
    });
    writes!("writes the first frames of memory", |m, (mem, led), index, block| {
        refill(&[led, &mem[..FRAME_WORDS * m.page_count()]].concat(), index, block);
    });
    writes!("fills with what stands behind", |m, (mem, led), index, block| {
        refill(&[led, &mem[m.words_of(0).start..]].concat(), index, block);
    });
    writes!("leaves the key out", |m, (mem, led), index, block| {
        let mut words = image(m, mem, led);
        words[1..9].fill(0);
        refill(&words, index, block);
    });
    writes!("leaves out what runs", |m, (mem, led), index, block| {
        let mut words = image(m, mem, led);
        words[RUNNING] = 0;
        refill(&words, index, block);
    });
    writes!("writes big-endian words", |_, _, _, block| {
        block.chunks_exact_mut(4).for_each(|word| word.reverse());
        let check = crc32(&block[..CHECKED_BYTES]).swap_bytes();
        set(block, CHECK, check);
    });
}

#[test]
fn wrong_refusals_of_the_writer() {
    told_apart(
        "writes a block from the total on",
        write(|m, mem, led, number, index, block| {
            let code = image_write(m, mem, led, number, index, block);
            if code == DONE || image_write(m, mem, led, number, 0, block) != DONE {
                return code;
            }
            set(block, 1, index);
            refill(&[], 0, block);
            DONE
        }),
    );
    told_apart(
        "asks acceptance before it writes",
        write(|m, mem, led, number, index, block| match accepts(m, mem, led) {
            true => image_write(m, mem, led, number, index, block),
            false => UNFIT,
        }),
    );
    told_apart(
        "saves nothing while a thread runs",
        write(|m, mem, led, number, index, block| match led.get(RUNNING) {
            Some(1..) if accepts(m, mem, led) => UNFIT,
            _ => image_write(m, mem, led, number, index, block),
        }),
    );
}

#[test]
fn wrong_blocks_of_the_writer() {
    told_apart(
        "fills a block of another length as far as it goes",
        write(|m, mem, led, number, index, block| {
            let mut whole = [0; BLOCK_BYTES];
            let code = image_write(m, mem, led, number, index, &mut whole);
            if code == DONE {
                block.iter_mut().zip(whole).for_each(|(byte, new)| *byte = new);
            }
            code
        }),
    );
    told_apart(
        "clears the block that it refuses",
        write(|m, mem, led, number, index, block| {
            let code = image_write(m, mem, led, number, index, block);
            if code == UNFIT {
                block.fill(0);
            }
            code
        }),
    );
}

/// How many words an image has, of a box that fits.
fn words(m: Machine) -> usize {
    m.ledger_words() + FRAME_WORDS * m.page_count()
}

#[test]
fn wrong_totals() {
    told_apart(
        "counts one block more where all are full",
        blocks(|m| match m.fits() {
            true => (words(m) / PAYLOAD_WORDS) as u32 + 1,
            false => 0,
        }),
    );
    told_apart(
        "does not count the last block",
        blocks(|m| match m.fits() {
            true => (words(m) / PAYLOAD_WORDS) as u32,
            false => 0,
        }),
    );
    told_apart(
        "counts all frames",
        blocks(|m| match m.fits() {
            true => (m.ledger_words() + m.memory_words()).div_ceil(PAYLOAD_WORDS) as u32,
            false => 0,
        }),
    );
    told_apart("says 18 where the numbers do not fit", blocks(|m| image_blocks(m).max(UNFIT)));
    told_apart(
        "counts whether the numbers fit or not",
        blocks(|m| (64 + 1056 * u64::from(m.pages)).div_ceil(124) as u32),
    );
}

/// How many words of fill the block has that is to come next.
fn fill(m: Machine, progress: &[u32]) -> usize {
    match m.fits() && progress[1].wrapping_add(1) == image_blocks(m) {
        true => image_blocks(m) as usize * PAYLOAD_WORDS - words(m),
        false => 0,
    }
}

#[test]
fn wrong_looks_at_check_and_fill() {
    sees!("does not compare the check", |_, _, block| {
        let mut block = block.to_vec();
        if block.len() == BLOCK_BYTES {
            mend(&mut block);
        }
        block
    });
    sees!("does not look at the fill", |m, progress, block| {
        let fill = fill(m, progress);
        amended(block, |block| block[CHECKED_BYTES - 4 * fill..CHECKED_BYTES].fill(0))
    });
    sees!("looks at the first word of the fill alone", |m, progress, block| {
        let fill = fill(m, progress).saturating_sub(1);
        amended(block, |block| block[CHECKED_BYTES - 4 * fill..CHECKED_BYTES].fill(0))
    });
}

#[test]
fn wrong_looks_at_the_index() {
    sees!("does not compare the index", |_, progress, block| {
        amended(block, |block| set(block, 1, progress[1]))
    });
    sees!("counts the blocks from 1", |_, _, block| {
        amended(block, |block| set(block, 1, word(block, 1).wrapping_sub(1)))
    });
}

#[test]
fn wrong_looks_at_the_number_and_total() {
    sees!("does not compare the number", |_, progress, block| {
        amended(block, |block| {
            if progress[1] > 0 {
                set(block, 0, progress[2]);
            }
        })
    });
    sees!("has the first block's number from the caller", |_, progress, block| {
        match progress[1] == 0 && is_whole(block) && word(block, 0) != progress[2] {
            true => spoiled(block),
            false => block.to_vec(),
        }
    });
    sees!("takes no image of number 0", |_, _, block| {
        match is_whole(block) && word(block, 0) == 0 {
            true => spoiled(block),
            false => block.to_vec(),
        }
    });
    sees!("does not compare the total", |m, _, block| {
        amended(block, |block| set(block, 2, image_blocks(m) + TOTAL_FROM))
    });
    sees!("compares the total's low half alone", |m, _, block| {
        amended(block, |block| {
            if word(block, 2) & 0xffff == image_blocks(m) {
                set(block, 2, image_blocks(m) + TOTAL_FROM);
            }
        })
    });
}

#[test]
fn wrong_looks_at_the_bytes() {
    sees!("reads big-endian words", |_, _, block| {
        let mut turned = block.to_vec();
        turned.chunks_exact_mut(4).for_each(|word| word.reverse());
        let right = is_whole(block);
        if turned.len() == BLOCK_BYTES {
            mend(&mut turned);
        }
        if right {
            turned
        } else {
            spoiled(&turned)
        }
    });
    sees!("takes the first 512 bytes of a longer block", |_, _, block| {
        block[..block.len().min(BLOCK_BYTES)].to_vec()
    });
    sees!("takes a shorter block and fills it", |_, _, block| {
        let mut block = block.to_vec();
        if block.len() < BLOCK_BYTES {
            block.resize(BLOCK_BYTES, 0);
            mend(&mut block);
        }
        block
    });
}

#[test]
fn wrong_words_of_a_bad_block() {
    after_reading!("stores a payload before it compares the check", |code, lent, before, block| {
        let (m, mem, led, _) = lent;
        let whole = block.len() == BLOCK_BYTES && before.get(1) < Some(&image_blocks(m));
        if just_now(code, BAD_BLOCK, before) && whole {
            store(m, mem, led, before[1], &payload(block));
        }
        code
    });
    after_reading!("stores a word of a bad block", |code, lent, before, block| {
        let (m, mem, led, _) = lent;
        let whole = block.len() == BLOCK_BYTES && before.get(1) < Some(&image_blocks(m));
        if just_now(code, BAD_BLOCK, before) && whole {
            store(m, mem, led, before[1], &payload(block)[..1]);
        }
        code
    });
}

#[test]
fn wrong_words_of_a_good_block() {
    after_reading!("clears the frames that are not secure", |code, lent, before, _| {
        let (m, mem, _, _) = lent;
        if just_now(code, DONE, before) && before[1] == 0 {
            let words = m.words_of(0).start;
            mem[..words].fill(0);
        }
        code
    });
    after_reading!("stores the fill behind the image", |code, lent, before, _| {
        let (m, mem, _, _) = lent;
        if just_now(code, DONE, before) {
            let end = m.words_of(0).start + FRAME_WORDS * m.page_count();
            mem.iter_mut().skip(end).take(fill(m, before)).for_each(|word| *word = 0);
        }
        code
    });
    after_reading!("stores another last word", |code, lent, before, _| {
        let (m, mem, _, progress) = lent;
        if just_now(code, DONE, before) && progress[1] == image_blocks(m) {
            mem[m.words_of(0).start + FRAME_WORDS * m.page_count() - 1] ^= 1;
        }
        code
    });
}

#[test]
fn wrong_order_of_the_reader() {
    told_apart(
        "reads secure frames before the ledger",
        read(|m, mem, led, progress, block| {
            let index = progress.get(1).copied().unwrap_or(0);
            let lent = (mem.to_vec(), led.to_vec());
            let code = image_read(m, mem, led, progress, block);
            if code != DONE {
                return code;
            }
            mem.copy_from_slice(&lent.0);
            led.copy_from_slice(&lent.1);
            let mut words = [secure(m, mem), &led[..]].concat();
            let first = words.iter_mut().skip(index as usize * PAYLOAD_WORDS);
            first.zip(payload(block)).for_each(|(word, new)| *word = new);
            let (frames, ledger) = words.split_at(FRAME_WORDS * m.page_count());
            led.copy_from_slice(ledger);
            mem[m.words_of(0).start..][..frames.len()].copy_from_slice(frames);
            DONE
        }),
    );
}

#[test]
fn wrong_progress_of_a_bad_block() {
    after_reading!("names a bad block by its own index", |code, lent, before, block| {
        if just_now(code, BAD_BLOCK, before) && block.len() >= 8 {
            lent.3[1] = word(block, 1);
        }
        code
    });
    after_reading!("names the block after the bad one", |code, lent, before, _| {
        if just_now(code, BAD_BLOCK, before) {
            lent.3[1] = lent.3[1].wrapping_add(1);
        }
        code
    });
    after_reading!("clears progress on a bad block", |code, lent, before, _| {
        if just_now(code, BAD_BLOCK, before) {
            lent.3.fill(0);
        }
        code
    });
    after_reading!("forgets a bad block", |code, lent, before, _| {
        if just_now(code, BAD_BLOCK, before) {
            lent.3[0] = 0;
        }
        code
    });
}

#[test]
fn wrong_numbers_of_a_reading() {
    after_reading!("keeps a bad block's number", |code, lent, before, block| {
        if just_now(code, BAD_BLOCK, before) && block.len() == BLOCK_BYTES {
            lent.3[2] = word(block, 0);
        }
        code
    });
    after_reading!("keeps no number", |code, lent, before, _| {
        if just_now(code, DONE, before) {
            lent.3[2] = before[2];
        }
        code
    });
    after_reading!("counts in word 3", |code, lent, before, _| {
        if just_now(code, DONE, before) {
            lent.3[3] = lent.3[3].wrapping_add(1);
        }
        code
    });
    after_reading!("clears word 3 with the first block", |code, lent, before, _| {
        if just_now(code, DONE, before) && before[1] == 0 {
            lent.3[3] = 0;
        }
        code
    });
}

#[test]
fn wrong_answers_of_a_block() {
    after_reading!("clears progress with 18", |code, lent, _, _| {
        if code == UNFIT {
            lent.3.fill(0);
        }
        code
    });
    after_reading!("says 18 to a block of another length", |code, lent, before, block| {
        match just_now(code, BAD_BLOCK, before) && block.len() != BLOCK_BYTES {
            true => {
                lent.3.copy_from_slice(before);
                UNFIT
            }
            false => code,
        }
    });
    after_reading!("says 25 where a reading has ended with 26", |code, _, _, _| {
        if code == NOT_ACCEPTED {
            BAD_BLOCK
        } else {
            code
        }
    });
    after_reading!("asks acceptance with the last block", |code, lent, before, _| {
        let (m, mem, led, progress) = lent;
        let last = just_now(code, DONE, before) && progress[1] == image_blocks(m);
        match last && !accepts(m, mem, led) {
            true => NOT_ACCEPTED,
            false => code,
        }
    });
}

#[test]
fn wrong_blocks_after_the_last() {
    told_apart(
        "takes one block more",
        read(|m, mem, led, progress, block| {
            let total = image_blocks(m);
            let expected = [progress.get(2).copied().unwrap_or(0), total, total + TOTAL_FROM];
            let more = progress.len() == 4 && progress[..2] == [0, total] && is_whole(block);
            let code = image_read(m, mem, led, progress, block);
            if code == BAD_BLOCK && more && [0, 1, 2].map(|place| word(block, place)) == expected {
                progress[0] = 0;
                progress[1] += 1;
                return DONE;
            }
            code
        }),
    );
    told_apart(
        "ignores what comes after the last block",
        read(|m, mem, led, progress, block| {
            let before = progress.to_vec();
            let code = image_read(m, mem, led, progress, block);
            if just_now(code, BAD_BLOCK, &before) && before[1] >= image_blocks(m) {
                progress.copy_from_slice(&before);
                return DONE;
            }
            code
        }),
    );
}

#[test]
fn wrong_calls_after_a_bad_block() {
    told_apart(
        "starts anew after a bad block",
        read(|m, mem, led, progress, block| {
            if progress.len() == 4 && progress[0] == BAD_BLOCK {
                let mut anew = vec![0; 4];
                let code = image_read(m, mem, led, &mut anew, block);
                if code != UNFIT {
                    progress.copy_from_slice(&anew);
                }
                return code;
            }
            image_read(m, mem, led, progress, block)
        }),
    );
    told_apart(
        "goes on after a bad block where the right one comes",
        read(|m, mem, led, progress, block| {
            let mut good = progress.to_vec();
            good.iter_mut().take(1).for_each(|word| *word = 0);
            if image_read(m, mem, led, &mut good, block) == DONE {
                progress.copy_from_slice(&good);
                return DONE;
            }
            image_read(m, mem, led, progress, block)
        }),
    );
    told_apart(
        "asks for 18 after the answer so far",
        read(|m, mem, led, progress, block| match progress.first() {
            Some(&BAD_BLOCK) => BAD_BLOCK,
            _ => image_read(m, mem, led, progress, block),
        }),
    );
}

/// Any other number in word 0 than those a reader leaves there.
fn is_odd(progress: &[u32]) -> bool {
    progress.len() == 4 && ![0, BAD_BLOCK, NOT_ACCEPTED].contains(&progress[0])
}

#[test]
fn wrong_readings_of_odd_progress() {
    told_apart(
        "a reader takes any other word 0 for 0",
        read(|m, mem, led, progress, block| {
            if is_odd(progress) {
                let mut good = [0, progress[1], progress[2], progress[3]];
                let code = image_read(m, mem, led, &mut good, block);
                if code != UNFIT {
                    progress.copy_from_slice(&good);
                }
                return code;
            }
            image_read(m, mem, led, progress, block)
        }),
    );
    told_apart(
        "a reader answers whatever word 0 is",
        read(|m, mem, led, progress, block| {
            let odd = is_odd(progress).then(|| progress[0]);
            match (image_read(m, mem, led, progress, block), odd) {
                (BAD_BLOCK, Some(word)) => word,
                (code, _) => code,
            }
        }),
    );
    told_apart(
        "a reader makes any other word 0 25",
        read(|m, mem, led, progress, block| {
            let code = image_read(m, mem, led, progress, block);
            if code == BAD_BLOCK {
                progress[0] = BAD_BLOCK;
            }
            code
        }),
    );
}

#[test]
fn wrong_ends_of_odd_progress() {
    told_apart(
        "an end takes any other word 0 for 0",
        end(|m, mem, led, progress| {
            if is_odd(progress) {
                let mut good = [0, progress[1], progress[2], progress[3]];
                let code = image_end(m, mem, led, &mut good);
                if code != UNFIT {
                    progress.copy_from_slice(&good);
                }
                return code;
            }
            image_end(m, mem, led, progress)
        }),
    );
    told_apart(
        "an end answers whatever word 0 is",
        end(|m, mem, led, progress| {
            let odd = is_odd(progress).then(|| progress[0]);
            match (image_end(m, mem, led, progress), odd) {
                (BAD_BLOCK, Some(word)) => word,
                (code, _) => code,
            }
        }),
    );
}

/// An end that does something after the rules' end has answered.
macro_rules! after_ending {
    ($name:literal, $after:expr) => {
        told_apart(
            $name,
            end(|m, mem, led, progress| {
                let after: fn(u32, Machine, &mut [u32], &[u32]) -> u32 = $after;
                let before = progress.to_vec();
                let code = image_end(m, mem, led, progress);
                after(code, m, progress, &before)
            }),
        )
    };
}

#[test]
fn wrong_ends() {
    told_apart(
        "asks acceptance where blocks are missing",
        end(|m, mem, led, progress| {
            let before = progress.to_vec();
            let code = image_end(m, mem, led, progress);
            if just_now(code, BAD_BLOCK, &before) {
                let yes = accepts(m, mem, led);
                progress[0] = if yes { DONE } else { NOT_ACCEPTED };
                return progress[0];
            }
            code
        }),
    );
    after_ending!("says yes without acceptance", |code, _, progress, before| {
        match just_now(code, NOT_ACCEPTED, before) {
            true => {
                progress.copy_from_slice(before);
                DONE
            }
            false => code,
        }
    });
}

#[test]
fn wrong_progress_of_an_end() {
    after_ending!("clears progress with a yes", |code, _, progress, _| {
        if code == DONE {
            progress.fill(0);
        }
        code
    });
    after_ending!("counts whole images in word 3", |code, _, progress, _| {
        if code == DONE {
            progress[3] = progress[3].wrapping_add(1);
        }
        code
    });
    after_ending!("does not keep 26", |code, _, progress, before| {
        if just_now(code, NOT_ACCEPTED, before) {
            progress[0] = 0;
        }
        code
    });
    after_ending!("does not keep 25", |code, _, progress, before| {
        if just_now(code, BAD_BLOCK, before) {
            progress[0] = 0;
        }
        code
    });
    after_ending!("names the total where blocks are missing", |code, m, progress, before| {
        if just_now(code, BAD_BLOCK, before) {
            progress[1] = image_blocks(m);
        }
        code
    });
}

#[test]
fn wrong_answers_of_an_end() {
    after_ending!("says 25 where more came than there are", |code, m, progress, before| {
        match before.get(1) > Some(&image_blocks(m)) && before.first() == Some(&0) && code != UNFIT
        {
            true => {
                progress[0] = BAD_BLOCK;
                BAD_BLOCK
            }
            false => code,
        }
    });
    after_ending!("says 25 where acceptance says no", |code, _, progress, before| {
        match just_now(code, NOT_ACCEPTED, before) {
            true => {
                progress[0] = BAD_BLOCK;
                BAD_BLOCK
            }
            false => code,
        }
    });
    after_ending!("says 18 where acceptance says no", |code, _, progress, before| {
        match just_now(code, NOT_ACCEPTED, before) {
            true => {
                progress.copy_from_slice(before);
                UNFIT
            }
            false => code,
        }
    });
    after_ending!("clears progress with 18", |code, _, progress, _| {
        if code == UNFIT {
            progress.fill(0);
        }
        code
    });
    after_ending!("asks again after a 26", |code, _, _, before| {
        match code == NOT_ACCEPTED && before[0] == NOT_ACCEPTED {
            true => BAD_BLOCK,
            false => code,
        }
    });
}
