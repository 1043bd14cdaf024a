//! The lines of a text, and their words.

use super::refusal::Reason;

/// The longest line.
const LINE_BYTES: usize = 200;

/// A text, of which lines are taken one after the other.
pub struct Lines<'t> {
    text: &'t [u8],
    /// Where the next line begins.
    next: usize,
}

impl<'t> Lines<'t> {
    pub fn new(text: &'t [u8]) -> Self {
        Lines { text, next: 0 }
    }

    /// Takes the next line. Its words stand in `words` then, and what is told is whether its bytes are good. There is
    /// none behind the last LF.
    pub fn take(&mut self, words: &mut Vec<&'t [u8]>) -> Option<Result<(), Reason>> {
        words.clear();
        let (text, start) = (self.text, self.next);
        if start >= text.len() {
            return None;
        }
        let (mut word, mut end, mut is_good) = (start, start, true);
        loop {
            match text.get(end) {
                Some(b'!'..=b'~') => (),
                Some(b' ') => {
                    if end > word {
                        words.push(&text[word..end]);
                    }
                    word = end + 1;
                }
                Some(b'\n') | None => break,
                Some(_) => is_good = false,
            }
            end += 1;
        }
        if end > word {
            words.push(&text[word..end]);
        }
        self.next = end + 1;
        Some(match is_good {
            false => Err(Reason::Byte),
            true if end - start > LINE_BYTES => Err(Reason::Long),
            true => Ok(()),
        })
    }
}
