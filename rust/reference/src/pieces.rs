//! Reading a text that comes in pieces: the bytes so far are kept, and the reader is asked about them.

use crate::read::{known_refusal, reading, Reading};
use crate::refusal::{Code, Refusal};
use crate::MAX_TEXT;

/// A text of which some pieces came.
#[derive(Clone, Debug, Default, PartialEq, Eq)]
pub struct Pieces {
    /// The bytes so far; none once they were refused.
    text: Vec<u8>,
    told: Option<Refusal>,
    is_ended: bool,
}

impl Pieces {
    /// Takes a piece. A refusal is told as soon as one of its bytes is known to be refused, and again
    /// with every later piece.
    pub fn feed(&mut self, piece: &[u8]) -> Result<(), Refusal> {
        self.before()?;
        self.text.extend_from_slice(piece);
        self.told = refusal_so_far(&self.text);
        self.told.map_or(Ok(()), |refusal| {
            self.text.clear();
            Err(refusal)
        })
    }

    /// Takes the end of the text.
    pub fn end(&mut self) -> Result<Reading, Refusal> {
        let before = self.before();
        self.is_ended = true;
        before?;
        reading(&self.text)
    }

    /// What was told before, or that the text has ended.
    fn before(&self) -> Result<(), Refusal> {
        if self.is_ended {
            return Err(Code::Ended.into());
        }
        self.told.map_or(Ok(()), Err)
    }
}

/// The refusal of a text of which these bytes came, if it is known by now. One byte too many is a
/// refusal where no byte before it was refused.
fn refusal_so_far(text: &[u8]) -> Option<Refusal> {
    let within = &text[..text.len().min(MAX_TEXT)];
    let too_long = Refusal::at(Code::TextTooLong, MAX_TEXT);
    known_refusal(within).or((text.len() > MAX_TEXT).then_some(too_long))
}
