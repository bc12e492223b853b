//! The files that the words name: looked at before anything is played, and
//! read with bounds.

pub mod beside;
mod image;
mod picture;
mod plain;
mod source;
mod state;

pub use image::Images;
pub use picture::marked;
pub use source::MOST_BYTES;
pub use state::{State, LEDGER, MEMORY};

use crate::options::{Asked, Source};
use crate::stop::Stop;
use crate::text::Text;

/// What the files hold; nothing is wrong with them.
pub struct Looked {
    /// The plan; an empty one where none is named.
    pub text: Text,
    /// The state; an empty one where none is to be explained.
    pub state: State,
    /// The saved images; none but of a run.
    pub images: Images,
}

/// Looks at all files, or complains. Nothing is left written, and what killed runs
/// left beside an image that is to be saved is removed. A plan that was passed on is
/// read from standard input, wherever it stood.
pub fn look(asked: &Asked, passed_on: bool) -> Result<Looked, Stop> {
    let mut images = Images::default();
    match asked {
        Asked::Run(run) => {
            run.state.as_ref().map_or(Ok(()), |folder| state::may_write(folder))?;
            images = Images::look(run)?;
        }
        Asked::Picture(picture) => picture::may_write(&picture.file)?,
        _ => {}
    }
    let state = match asked {
        Asked::Why(why) => State::read(&why.folder)?,
        _ => State::default(),
    };
    let text = asked.source().map_or(Ok(Text::default()), |source| {
        source::text(source, if passed_on { &Source::Input } else { source })
    });
    Ok(Looked { text: text?, state, images })
}
