//! Feed files of a feed's routes.
use crate::raw::{self, Loaded};
use crate::{ConcurrentTable, Error, Table};
use std::fmt;
use std::io::{self, Read, Write};

/// The largest number of bytes of a line of a feed file, without its end.
const MAX_LINE: usize = 128;

/// The reason why [`Table::save`] or [`Table::load`] stopped.
#[derive(Debug)]
#[non_exhaustive]
pub enum FileError {
    /// The file can't be read or written.
    Io(io::Error),
    /// The call failed, but not because of a line: the feed is out of range, memory ran out, or the system refuses a change.
    Table(Error),
    /// A line isn't an `add` line of a feed file.
    Line {
        /// Its number, from 1.
        line: usize,
        /// Its first 129 bytes at most.
        text: String,
    },
    /// The table refused the route of a line.
    Route {
        /// Its number, from 1.
        line: usize,
        /// The whole line.
        text: String,
        /// The reason.
        error: Error,
    },
}

impl fmt::Display for FileError {
    fn fmt(&self, f: &mut fmt::Formatter<'_>) -> fmt::Result {
        match self {
            FileError::Io(error) => write!(f, "{error}"),
            FileError::Table(error) => write!(f, "{error}"),
            FileError::Line { line, text } => {
                write!(f, "line {line}: not an add line of a feed file: {text:?}")
            }
            FileError::Route { line, text, error } => write!(f, "line {line}: {error}: {text:?}"),
        }
    }
}

impl std::error::Error for FileError {
    fn source(&self) -> Option<&(dyn std::error::Error + 'static)> {
        match self {
            FileError::Io(error) => Some(error),
            FileError::Table(error) | FileError::Route { error, .. } => Some(error),
            FileError::Line { .. } => None,
        }
    }
}

impl From<io::Error> for FileError {
    fn from(error: io::Error) -> FileError {
        FileError::Io(error)
    }
}

impl From<Error> for FileError {
    fn from(error: Error) -> FileError {
        FileError::Table(error)
    }
}

impl Table {
    /// Writes the feed's routes as a feed file of version 2, which [`Table::load`] and the program read.
    ///
    /// # Errors
    /// [`FileError::Table`] with [`Error::Number`] if the feed is out of range, [`Error::Memory`] or [`Error::Busy`]; [`FileError::Io`].
    pub fn save(&self, feed: u32, mut to: impl Write) -> Result<(), FileError> {
        Ok(to.write_all(&self.saved(feed)?)?)
    }

    /// Adds the routes of a feed file that consists of `add` lines, and returns their number. The file is read whole before: if it
    /// can't be read, nothing has changed. After another error, the routes of the lines before it stay.
    ///
    /// # Errors
    /// [`FileError::Line`] or [`FileError::Route`] of the first line that can't be added, [`FileError::Io`], [`FileError::Table`].
    pub fn load(&mut self, feed: u32, from: impl Read) -> Result<usize, FileError> {
        load(from, |text| self.loaded(feed, text))
    }
}

impl ConcurrentTable {
    /// Writes the feed's routes in one published table, as [`Table::save`] does.
    ///
    /// # Errors
    /// Those of [`Table::save`].
    pub fn save(&self, feed: u32, mut to: impl Write) -> Result<(), FileError> {
        Ok(to.write_all(&self.saved(feed)?)?)
    }

    /// Adds the routes of a feed file, as [`Table::load`] does. It is one change: other changes wait. The table is published
    /// once, at the end.
    ///
    /// # Errors
    /// Those of [`Table::load`].
    pub fn load(&self, feed: u32, from: impl Read) -> Result<usize, FileError> {
        load(from, |text| self.loaded(feed, text))
    }
}

fn load(
    mut from: impl Read,
    call: impl FnOnce(&[u8]) -> (u32, Loaded),
) -> Result<usize, FileError> {
    let mut text = Vec::new();
    from.read_to_end(&mut text)?;
    let (status, loaded) = call(&text);
    let error = match status {
        raw::DONE => return Ok(loaded.routes),
        raw::NOT_ADDED if loaded.code == raw::FULL => Error::Full,
        raw::NOT_ADDED => Error::Exists,
        status => Error::of(status),
    };
    let line = loaded.line;
    Err(match status {
        raw::BAD_TEXT => FileError::Line {
            line,
            text: line_of(&text, line),
        },
        raw::BAD_LENGTH | raw::BAD_BITS | raw::NOT_ADDED => FileError::Route {
            line,
            text: line_of(&text, line),
            error,
        },
        _ => FileError::Table(error),
    })
}

/// Returns a line of a text, from 1, without its end: at most the bytes that show that it is too long.
fn line_of(text: &[u8], number: usize) -> String {
    let line = text.split(|byte| *byte == b'\n').nth(number - 1);
    let line = line.unwrap_or_default();
    String::from_utf8_lossy(&line[..line.len().min(MAX_LINE + 1)]).into_owned()
}
