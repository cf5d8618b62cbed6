//! The format codes, for people.

use aukpocket::{Code, CODES};

/// The numbers of all codes.
pub fn numbers() -> String {
    let numbers = CODES.map(|code| code.number.to_string());
    let [before @ .., last] = &numbers;
    format!("{} or {last}", before.join(", "))
}

/// A code's name behind a comma; nothing where there is no such code.
pub fn name(number: u32) -> String {
    Code::of(number).map_or(String::new(), |code| format!(", {}", code.name))
}

/// A line for each code, with its name and the bytes of a sample.
pub fn list() -> String {
    let line = |code: Code| {
        let bytes = match code.sample_length {
            1 => "1 byte".to_string(),
            length => format!("{length} bytes"),
        };
        format!("  {}  {:<27}  {bytes} a sample\n", code.number, code.name)
    };
    CODES.map(line).concat()
}

#[cfg(test)]
mod tests {
    use super::*;

    #[test]
    fn in_words() {
        assert_eq!(numbers(), "1, 2, 3, 4, 5 or 8");
        assert_eq!(name(5), ", IEEE floating point");
        assert_eq!(name(6), "");
        let list = list();
        let lines: Vec<&str> = list.lines().collect();
        assert_eq!(lines.len(), CODES.len());
        assert_eq!(
            lines[2],
            "  3  whole numbers of two bytes   2 bytes a sample"
        );
        assert_eq!(
            lines[5],
            "  8  whole numbers of one byte    1 byte a sample"
        );
    }
}
