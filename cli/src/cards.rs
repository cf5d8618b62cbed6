//! Card bytes as text, through the library's listing.

use crate::layout::{binary_place, BINARY, CARDS, FIRST_TRACE, TAG};
use aukpocket::{blank_eight, list_cards, LISTING_LENGTH};
use std::fmt::Write;

/// How many cards a reel has, and the columns of each.
pub const COUNT: usize = 40;
pub const COLUMNS: usize = 80;

/// The first cards of the text, a line each, without blanks at the end. A dot stands for a control character.
pub fn text(bytes: &[u8], cards: usize) -> String {
    let mut text = String::new();
    for line in lines(&listing_of(bytes)).take(cards) {
        let line: String = line.iter().map(|&byte| dotted(byte)).collect();
        let _ = writeln!(text, "  {}", line.trim_end_matches(' '));
    }
    text
}

/// The lines of a listing, without the 0A that closes each.
pub fn lines(listing: &[u8; LISTING_LENGTH]) -> impl Iterator<Item = &[u8]> {
    listing.chunks(COLUMNS + 1).map(|closed| &closed[..COLUMNS])
}

/// The listing of card bytes, wherever they are from: the library is lent a record without traces that has them. A byte 00 is a blank, as
/// document 01 has it, and so is what is missing of 40 cards.
pub fn listing_of(bytes: &[u8]) -> [u8; LISTING_LENGTH] {
    let mut record = [0; FIRST_TRACE + TAG + 4];
    record[..TAG].copy_from_slice(&[0x01, 0x0C, 0x80]);
    // What is missing stays 00, and is blanked with the rest.
    let there = bytes.len().min(CARDS);
    record[TAG..][..there].copy_from_slice(&bytes[..there]);
    for cards in record[TAG..BINARY].chunks_exact_mut(8) {
        let mut eight = [0; 8];
        eight.copy_from_slice(cards);
        let blanked = blank_eight(u64::from_be_bytes(eight));
        cards.copy_from_slice(&blanked.to_be_bytes());
    }
    record[BINARY..BINARY + TAG].copy_from_slice(&[0x02, 0x00, 0x3C]);
    record[binary_place(3217) + 1] = 1;
    record[binary_place(3221) + 1] = 1;
    record[FIRST_TRACE..FIRST_TRACE + TAG].copy_from_slice(&[0x05, 0x00, 0x04]);
    list_cards(&record).expect("a record without traces is valid")
}

/// The character of a byte of a listing, with a dot for a control character.
fn dotted(character: u8) -> char {
    let character = char::from(character);
    if character.is_control() {
        '.'
    } else {
        character
    }
}

#[cfg(test)]
mod tests {
    use super::*;

    /// What is missing, and each byte 00, is a blank; what is beyond 40 cards isn't looked at.
    #[test]
    fn card_bytes_of_any_length() {
        let bytes: Vec<u8> = [0xC1, 0x00, 0x5A, 0x00, 0x00].repeat(700);
        for length in [0, 1, 2, 7, 8, 9, 80, 3195, 3196, 3199, 3200, 3201, 3500] {
            let listing = listing_of(&bytes[..length]);
            let shown: Vec<u8> = lines(&listing).flatten().copied().collect();
            for (place, &character) in shown.iter().enumerate() {
                let expected = match bytes[..length].get(place) {
                    Some(0xC1) => b'A',
                    Some(0x5A) => b'!',
                    _ => b' ',
                };
                assert_eq!(character, expected, "place {place} of {length}");
            }
            assert_eq!(shown.len(), CARDS);
        }
    }
}
