//! Plays a plan and prints its answers, or what its spaces measure, or draws
//! the box after it.

use crate::measure::Steps;
use crate::picture::picture;
use crate::player::Player;
use crate::svg::svg;
use crate::{image, measure, shift, table, write};
use monitor::{Machine, Monitor};
use plan::files::{marked, Images};
use plan::options::{Form, Fresh, Picture, Run};
use plan::shown::shown;
use plan::stop::{say, Stop};
use plan::text::Text;
use std::io::Write;
use std::path::Path;

/// Plays the plan and prints its answers as they come; whether they were as
/// the plan expects them.
pub fn run(
    asked: &Run,
    text: &Text,
    images: &Images,
    colour: bool,
    out: &mut impl Write,
) -> Result<bool, Stop> {
    let fresh = &asked.plan.fresh;
    let mut player = match &asked.load {
        Some(file) => Player::on(text, image::restored(file, fresh.machine, &images.loaded)?),
        None => Player::new(text, fresh)?,
    };
    if asked.form != Form::Json {
        out.write_all(table::head().as_bytes())?;
    }
    match asked.form {
        Form::Ledger => player.watched(|played, bench| {
            let (row, picture) = (table::row(played), picture(bench.ledger(), colour));
            Ok(write!(out, "{row}\n{picture}\n").and_then(|()| out.flush())?)
        })?,
        form => {
            let line = if form == Form::Json { table::json } else { table::row };
            player.play(|batch| {
                batch.iter().try_for_each(|played| out.write_all(line(played).as_bytes()))?;
                Ok(out.flush()?)
            })?;
        }
    }
    if asked.form == Form::LedgerAtEnd {
        write!(out, "\n{}", picture(player.bench().ledger(), colour))?;
    }
    out.flush()?;
    left(asked, images, &player)?;
    Ok(player.met())
}

/// Writes what is asked for of the box after a plan. After answers that are not as
/// expected no image is saved: one that stands there is worth more.
fn left(asked: &Run, images: &Images, player: &Player) -> Result<(), Stop> {
    let bench = player.bench();
    asked.state.as_ref().map_or(Ok(()), |folder| write::state(folder, bench))?;
    match &asked.save {
        Some(file) if player.met() => image::save(file, images.number, bench)?,
        Some(file) => {
            say(&format!("{} is not saved: an answer is not the expected one", shown(file)));
        }
        None => {}
    }
    Ok(())
}

/// Plays the plan and prints what each space measures once it is final, then
/// what those measure that are not; whether the answers were as the plan
/// expects them.
pub fn measure(fresh: &Fresh, text: &Text, out: &mut impl Write) -> Result<bool, Stop> {
    let mut player = Player::new(text, fresh)?;
    let mut steps = Steps::default();
    player.watched(|played, bench| {
        let Some(call) = &played.call else { return Ok(()) };
        steps.note(call, &played.answer, bench);
        match measure::line(call, &played.answer, bench.ledger(), &steps) {
            None => Ok(()),
            Some(line) => Ok(writeln!(out, "{line}").and_then(|()| out.flush())?),
        }
    })?;
    out.write_all(measure::building(player.bench(), &steps).as_bytes())?;
    out.flush()?;
    Ok(player.met())
}

/// Plays the plan and writes a picture of the box after it; whether the
/// answers were as the plan expects them. Without a plan box A is drawn in the
/// middle of the shift, another box fresh.
pub fn draw(asked: &Picture, text: &Text) -> Result<bool, Stop> {
    let drawn = |bench: &Monitor| marked(&svg(bench));
    let write = |drawn: String| write::whole(Path::new(&asked.file), drawn.as_bytes());
    if asked.source.is_none() && asked.fresh.machine == Machine::BOX_A {
        return write(drawn(&shift::middle()?)).map(|()| true);
    }
    let mut player = Player::new(text, &asked.fresh)?;
    player.play(|_| Ok(()))?;
    write(drawn(player.bench()))?;
    Ok(player.met())
}
