//! How many cases there were, and what came of them.

use crate::Kind;
use model::refusals::BAD_CLIP_COUNT;

/// How many codes an answer can have: 0 and the refusals, of which this is the
/// last.
const CODES: usize = 1 + BAD_CLIP_COUNT;

/// For each kind of call, how often each code was given.
pub struct Tally {
    names: Vec<&'static str>,
    codes: Vec<[u64; CODES]>,
}

impl Tally {
    /// A tally of these kinds, still empty.
    pub fn new(kinds: &[Kind]) -> Tally {
        Tally {
            names: kinds.iter().map(|kind| kind.name).collect(),
            codes: vec![[0; CODES]; kinds.len()],
        }
    }

    /// Counts one case.
    pub fn count(&mut self, kind: usize, code: usize) {
        self.codes[kind][code] += 1;
    }

    /// All cases so far.
    pub fn cases(&self) -> u64 {
        self.codes.iter().flatten().sum()
    }

    /// A table of all that was counted: a row for each kind, with how often it was
    /// accepted, and how often refused with which number.
    pub fn table(&self) -> String {
        let mut rows = vec![["Call or law", "Accepted", "Refused"].map(str::to_string)];
        for (name, codes) in self.names.iter().zip(&self.codes) {
            let refused = codes.iter().enumerate().skip(1);
            let refused: Vec<String> = refused
                .filter(|(_, &times)| times > 0)
                .map(|(code, &times)| format!("{code}: {}", grouped(times)))
                .collect();
            let refused = match refused.is_empty() {
                true => "-".to_string(),
                false => refused.join("; "),
            };
            rows.push([name.to_string(), grouped(codes[0]), refused]);
        }
        let width = |column: usize| rows.iter().map(|row| row[column].len()).max().unwrap_or(0);
        let widths = [0, 1, 2].map(width);
        let line = |row: &[String; 3]| {
            let [name, accepted, refused] = row;
            let [first, second, third] = widths;
            format!("| {name:first$} | {accepted:>second$} | {refused:third$} |\n")
        };
        let under = format!(
            "|-{}-|-{}:|-{}-|\n",
            "-".repeat(widths[0]),
            "-".repeat(widths[1]),
            "-".repeat(widths[2])
        );
        let mut lines: Vec<String> = rows.iter().map(line).collect();
        lines.insert(1, under);
        lines.concat()
    }
}

/// A number with a comma before every three digits.
pub fn grouped(number: u64) -> String {
    let digits = number.to_string();
    let mut grouped = String::new();
    for (place, digit) in digits.chars().enumerate() {
        if place > 0 && (digits.len() - place).is_multiple_of(3) {
            grouped.push(',');
        }
        grouped.push(digit);
    }
    grouped
}

#[cfg(test)]
mod tests {
    use super::*;

    #[test]
    fn the_table_has_a_row_for_each_kind() {
        let kind = |name| Kind {
            name,
            run: |_| Ok(0),
        };
        let mut tally = Tally::new(&[kind("check"), kind("merge laws"), kind("head")]);
        for _ in 0..1234 {
            tally.count(0, 0);
        }
        for code in [2, 2, 10] {
            tally.count(0, code);
        }
        tally.count(1, 0);
        assert_eq!(tally.cases(), 1238);
        let table = "\
| Call or law | Accepted | Refused     |
|-------------|---------:|-------------|
| check       |    1,234 | 2: 2; 10: 1 |
| merge laws  |        1 | -           |
| head        |        0 | -           |
";
        assert_eq!(tally.table(), table);
    }

    #[test]
    fn numbers_have_commas() {
        let numbers = [0, 999, 1000, 65_535, 1_000_000].map(grouped);
        assert_eq!(numbers, ["0", "999", "1,000", "65,535", "1,000,000"]);
    }
}
