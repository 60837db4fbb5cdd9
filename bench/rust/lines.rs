//! Lines and words, as scripts have them.

/// The lines of a text. A line ends at LF, CR or CRLF, and an unended last one counts.
pub struct Lines<'a> {
    rest: &'a str,
}

/// The lines of a text.
pub fn lines(text: &str) -> Lines<'_> {
    Lines { rest: text }
}

impl<'a> Iterator for Lines<'a> {
    type Item = &'a str;

    fn next(&mut self) -> Option<&'a str> {
        if self.rest.is_empty() {
            return None;
        }
        let bytes = self.rest.as_bytes();
        let len = bytes
            .iter()
            .position(|byte| matches!(byte, b'\n' | b'\r'))
            .unwrap_or(bytes.len());
        let end = match &bytes[len..] {
            [] => 0,
            [b'\r', b'\n', ..] => 2,
            _ => 1,
        };
        let line = &self.rest[..len];
        self.rest = &self.rest[len + end..];
        Some(line)
    }
}

/// The longest runs of characters other than spaces and tabs.
pub fn words(line: &str) -> impl Iterator<Item = &str> {
    line.split([' ', '\t']).filter(|word| !word.is_empty())
}

/// The number that the second word of a line writes, where it has one.
pub fn number(line: &str) -> Option<i64> {
    words(line).nth(1)?.parse().ok()
}
