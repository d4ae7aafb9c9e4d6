//! What the library refuses.
use crate::c::{tt_message, Answer};
use std::fmt;

/// The status of a call that is done.
const DONE: u32 = 0;
/// The status of a call whose room is too small.
pub(crate) const ROOM: u32 = 7;
/// The length of the longest message, with its zero.
const MESSAGE_BYTES: usize = 90;
const OUT_OF_MEMORY: &[u8] = b"tt_render: out of memory";

/// A refusal.
#[derive(Clone, Copy, Debug, PartialEq, Eq)]
pub struct Error {
    answer: Answer,
    line: Option<usize>,
}

impl Error {
    /// The status of tt_render.h: 1 the font, 2 the request, 3 a font that is too large, 5 memory, 7 a room that is too
    /// small.
    pub fn status(&self) -> u32 {
        self.answer.status
    }

    /// The number of the refusal, as tt_render.h lists them, or 0.
    pub fn number(&self) -> u32 {
        self.answer.number
    }

    /// The tag of the table that has the defect, `file` for the directory of the font.
    pub fn table(&self) -> Option<[u8; 4]> {
        Some(self.answer.table).filter(|it| *it != [0; 4])
    }

    /// The offset of the defect in its table.
    pub fn offset(&self) -> u32 {
        self.answer.offset
    }

    /// The bytes that a room has to have, where one is too small.
    pub fn wanted(&self) -> Option<u64> {
        Some(self.answer.bytes).filter(|_| self.answer.status == ROOM)
    }

    /// The index of the text that `Font::labels` or `Font::labels_room` refused.
    pub fn line(&self) -> Option<usize> {
        self.line
    }

    /// The refusal of a text of several.
    pub(crate) fn of_line(answer: Answer, line: usize) -> Error {
        Error {
            answer,
            line: Some(line),
        }
    }
}

impl fmt::Display for Error {
    fn fmt(&self, to: &mut fmt::Formatter<'_>) -> fmt::Result {
        let (mut text, mut told) = ([0; MESSAGE_BYTES], Answer::default());
        // Where there is no memory for the message, this text remains.
        text[..OUT_OF_MEMORY.len()].copy_from_slice(OUT_OF_MEMORY);
        // SAFETY: the room is as long as it says, and the answers are two.
        unsafe { tt_message(&self.answer, text.as_mut_ptr(), text.len(), &mut told) };
        let end = text.iter().position(|it| *it == 0).unwrap_or(text.len());
        let message = String::from_utf8_lossy(&text[..end]);
        to.write_str(message.strip_prefix("tt_render: ").unwrap_or(&message))
    }
}

impl std::error::Error for Error {}

/// Returns the answer of a call that is done, or the refusal.
pub(crate) fn done(answer: Answer) -> Result<Answer, Error> {
    match answer.status {
        DONE => Ok(answer),
        _ => Err(Error { answer, line: None }),
    }
}
