//! Names as lines of a text, which people read and `stopbook build` reads again.

use crate::outcome::Streams;
use crate::text::{counted, is_line, shown};

/// Lines with a name on each.
#[derive(Debug, Default)]
pub struct Lines {
    text: Vec<u8>,
    escaped: usize,
}

impl Lines {
    /// Adds a name. One that no line of text can hold is escaped.
    pub fn push(&mut self, name: &[u8]) {
        if is_line(name) {
            self.text.extend_from_slice(name);
        } else {
            self.escaped += 1;
            self.text.extend_from_slice(shown(name).as_bytes());
        }
        self.text.push(b'\n');
    }

    /// The text.
    pub fn text(&self) -> &[u8] {
        &self.text
    }

    /// Says how many names of this source are escaped, where there are some.
    pub fn tell_escaped(&self, source: &str, streams: &mut Streams) {
        if self.escaped > 0 {
            let count = counted(self.escaped, "name");
            streams.note(&format!(
                "{source}: {count} with bytes that are no line of text, shown as \\ and hex \
                 digits; a book built from this list would differ"
            ));
        }
    }
}

#[cfg(test)]
mod tests {
    use super::*;

    #[test]
    fn names_that_are_no_line_are_escaped_and_counted() {
        let mut lines = Lines::default();
        for name in [&b"Mar"[..], b"a\\b", b"Mar\r", b"\xFF", "École".as_bytes()] {
            lines.push(name);
        }
        assert_eq!(lines.text(), "Mar\na\\b\nMar\\0D\n\\FF\nÉcole\n".as_bytes());
        assert_eq!(lines.escaped, 2);
        assert_eq!(Lines::default().text(), b"");
    }
}
