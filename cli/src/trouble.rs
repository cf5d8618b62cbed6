//! What keeps a command from its end: a sentence, and the exit status that goes with it.

use std::fmt::Display;

pub struct Trouble {
    pub status: u8,
    pub sentence: String,
}

impl Trouble {
    /// Wrong words on the command line.
    pub fn usage(sentence: impl Display) -> Trouble {
        Trouble::new(1, sentence)
    }

    /// A file that can't be read or written, or memory that can't be had.
    pub fn file(sentence: impl Display) -> Trouble {
        Trouble::new(1, sentence)
    }

    /// A reel, record or field that the library refuses.
    pub fn refused(name: impl Display, sentence: impl Display) -> Trouble {
        Trouble::new(2, format!("{name}: {sentence}"))
    }

    /// A reel that came back otherwise than it went out, or a file that isn't the record of its reel.
    pub fn differs(sentence: impl Display) -> Trouble {
        Trouble::new(3, sentence)
    }

    /// No trouble, but an answer that was printed and that the exit status tells too.
    pub fn answered(status: u8) -> Trouble {
        Trouble::new(status, "")
    }

    fn new(status: u8, sentence: impl Display) -> Trouble {
        Trouble {
            status,
            sentence: sentence.to_string(),
        }
    }
}
