//! How many words of a reel aren't normal, for people.

use crate::layout::code_of;
use aukpocket::ReelRead;
use std::fmt;

/// The words of a reel in code 1, and how many of them aren't normal.
#[derive(Clone, Copy)]
pub struct NotNormal {
    count: u64,
    words: u64,
}

impl NotNormal {
    /// What was counted in reading a reel. None where there is nothing to tell: the reel is in another code, or has no words.
    pub fn of(reel: &[u8], read: ReelRead) -> Option<NotNormal> {
        let counted = NotNormal {
            count: read.not_normal,
            words: read.traces * read.samples,
        };
        (code_of(reel) == 1 && counted.words > 0).then_some(counted)
    }

    /// Whether some aren't normal.
    pub fn any(self) -> bool {
        self.count > 0
    }

    /// The same beside a heading that says what is counted.
    pub fn without_noun(self) -> String {
        self.text("")
    }

    fn text(self, noun: &str) -> String {
        let NotNormal { count, words } = self;
        match count {
            0 => format!("none of {words}{noun} not normal"),
            _ => format!(
                "{count} of {words}{noun} not normal ({})",
                share(count, words)
            ),
        }
    }
}

impl fmt::Display for NotNormal {
    fn fmt(&self, f: &mut fmt::Formatter) -> fmt::Result {
        f.write_str(&self.text(match self.words {
            1 => " word",
            _ => " words",
        }))
    }
}

/// Some of a whole, in hundredths of a percent, rounded. What rounds to none or to all and isn't is said to be under or over.
pub fn share(some: u64, all: u64) -> String {
    match (some * 10_000 + all / 2) / all {
        _ if some == all => "100 %".to_string(),
        0 => "under 0.01 %".to_string(),
        10_000 => "over 99.99 %".to_string(),
        hundredths => format!("{}.{:02} %", hundredths / 100, hundredths % 100),
    }
}

#[cfg(test)]
mod tests {
    use super::*;

    /// Shares where they begin to round otherwise, up to the most words that a reel has, 100,000 traces of 32,767 samples.
    #[test]
    fn shares() {
        for (some, all, text) in [
            (1, 1, "100 %"),
            (1, 2, "50.00 %"),
            (1, 3, "33.33 %"),
            (2, 3, "66.67 %"),
            (2, 1440, "0.14 %"),
            (1, 10_000, "0.01 %"),
            (1, 20_000, "0.01 %"),
            (1, 20_001, "under 0.01 %"),
            (1, 3_276_700_000, "under 0.01 %"),
            (163_834, 3_276_700_000, "under 0.01 %"),
            (163_835, 3_276_700_000, "0.01 %"),
            (9_999, 10_000, "99.99 %"),
            (19_999, 20_000, "over 99.99 %"),
            (3_276_536_164, 3_276_700_000, "99.99 %"),
            (3_276_536_165, 3_276_700_000, "over 99.99 %"),
            (3_276_699_999, 3_276_700_000, "over 99.99 %"),
            (3_276_700_000, 3_276_700_000, "100 %"),
        ] {
            assert_eq!(share(some, all), text, "{some} of {all}");
        }
    }

    #[test]
    fn in_words() {
        for (count, words, text) in [
            (0, 1, "none of 1 word not normal"),
            (1, 1, "1 of 1 word not normal (100 %)"),
            (0, 1440, "none of 1440 words not normal"),
            (2, 1440, "2 of 1440 words not normal (0.14 %)"),
            (1440, 1440, "1440 of 1440 words not normal (100 %)"),
        ] {
            let counted = NotNormal { count, words };
            assert_eq!(counted.to_string(), text);
            let noun = if words == 1 { " word" } else { " words" };
            assert_eq!(counted.without_noun(), text.replace(noun, ""));
        }
    }
}
