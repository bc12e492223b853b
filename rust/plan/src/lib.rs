//! What `./box` is asked: its words, the files that they name, and the text of
//! a plan. It needs no library, so that what is wrong is said before anything
//! is proved.
//!
//! - [`options`] reads the words; [`options::Asked`] is what they ask for.
//! - [`files`] looks at the files that are named, and reads them with bounds.
//! - [`text`] is a plan: checked whole, then read again call by call.
//! - [`calls`] is the table of calls.
//! - [`shown`] is how a name is printed, [`decimal`] how a number is read.
//! - [`stop`] is why a program ends early, and what it says then.

pub mod calls;
pub mod decimal;
pub mod files;
pub mod options;
pub mod shown;
pub mod stop;
pub mod text;

use types::Key;

/// What is wrong with what was asked, in one line.
pub type Complaint = String;

/// The key where none is given.
pub const KEY: Key = Key::new([1, 2, 3, 4, 5, 6, 7, 8]);
