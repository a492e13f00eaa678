//! The figures as tables of Markdown.

use crate::function::{Function, OUTSIDE};
use crate::way::{Cycle, Fit, Held, Way, MOST_LEVELS};

/// The stacks of guests that the page speaks of, in KiB.
pub const GUESTS: [u64; 4] = [2, 4, 8, 26];

/// A call: its name, its deepest way, and what fits the stack of each guest.
pub type Call<'a> = (&'a str, Way, [Fit; GUESTS.len()]);

/// The page: the bound of each call with its deepest way, what the cycle costs,
/// which guest can make which call, and the frame of each function.
pub fn page(all: &[Call], cycles: &[Cycle], functions: &[Function]) -> String {
    [
        calls(all),
        cycles.iter().map(cycle).collect(),
        guests(all),
        frames(functions),
    ]
    .join("\n")
}

/// The bound of each call.
fn calls(all: &[Call]) -> String {
    let mut text = format!(
        "The most stack that any input can cost a call, in bytes: these, its return address \
         among them,\nand what the guest's own {} take.\n\n",
        OUTSIDE.join(" and ")
    );
    text += "| Call | Stack | The deepest way, with the bytes of each frame |\n|---|---:|---|\n";
    for (name, way, _) in all {
        let frames: Vec<String> = way.frames.iter().map(shown).collect();
        text += &format!(
            "| `{name}` | {} | {} |\n",
            grouped(way.bytes),
            frames.join(", ")
        );
    }
    text
}

/// A frame on a way.
fn shown(held: &Held) -> String {
    let times = match held.times {
        1 => String::new(),
        times => format!("{times} times "),
    };
    format!("{times}`{}` {}", held.name, grouped(held.bytes))
}

/// What a cycle costs.
fn cycle(cycle: &Cycle) -> String {
    let names: Vec<String> = cycle
        .levels
        .iter()
        .map(|held| format!("`{}`", held.name))
        .collect();
    format!(
        "The cycle of `{}` is {}: {} bytes a level, and at most {MOST_LEVELS} levels, as is proved.\n",
        cycle.object,
        names.join(" and "),
        grouped(cycle.level())
    )
}

/// Which guest can make which call.
fn guests(all: &[Call]) -> String {
    let mut text = "What a guest with a stack of so many KiB can lend a call: any bytes, or books of up to so \
                    many levels,\nwhich are forks that stand inside each other, on the longest way down.\n\n| Call |"
        .to_string();
    for kib in GUESTS {
        text += &format!(" {kib} KiB |");
    }
    text += &format!("\n|---|{}\n", "---|".repeat(GUESTS.len()));
    for (name, _, fits) in all {
        text += &format!("| `{name}` | {} |\n", fits.map(fitting).join(" | "));
    }
    text
}

/// What fits, as a cell.
fn fitting(fit: Fit) -> String {
    match fit {
        Fit::Nothing => "nothing".to_string(),
        Fit::Levels(1) => "1 level".to_string(),
        Fit::Levels(levels) => format!("{levels} levels"),
        Fit::Any => "any".to_string(),
    }
}

/// The frame of each function, by the objects and by name.
fn frames(functions: &[Function]) -> String {
    let mut rows: Vec<(&str, &str, u64)> = functions
        .iter()
        .map(|function| (&*function.object, &*function.name, function.peak))
        .collect();
    rows.sort_unstable();
    let mut text = "| Object | Function | Frame, bytes |\n|---|---|---:|\n".to_string();
    for (object, name, peak) in rows {
        text += &format!("| `{object}` | `{name}` | {} |\n", grouped(peak));
    }
    text
}

/// A number with a comma after each three digits from its end.
pub fn grouped(number: u64) -> String {
    let digits = number.to_string();
    let mut text = String::new();
    for (place, digit) in digits.chars().enumerate() {
        if place > 0 && (digits.len() - place).is_multiple_of(3) {
            text.push(',');
        }
        text.push(digit);
    }
    text
}

#[cfg(test)]
mod tests {
    use super::*;

    /// A frame on a way.
    fn held(name: &str, bytes: u64, times: u64) -> Held {
        let name = name.to_string();
        Held { name, bytes, times }
    }

    #[test]
    fn the_page_has_bounds_ways_and_frames() {
        let way = Way {
            bytes: 35_264,
            frames: vec![
                held("book_check", 64, 1),
                held("inspect::check_node", 176, 200),
            ],
        };
        let cycle = Cycle {
            object: "book.o".to_string(),
            levels: vec![held("inspect::check_node", 176, 200)],
        };
        let function = |object: &str, name: &str, peak| Function {
            name: name.to_string(),
            object: object.to_string(),
            is_exported: false,
            peak,
            calls: Vec::new(),
        };
        let functions = [
            function("book.o", "inspect::check_node", 176),
            function("book.o", "book_check", 1064),
            function("announcer.o", "inspect::check_node", 192),
        ];
        let fits = [Fit::Nothing, Fit::Levels(1), Fit::Levels(44), Fit::Any];
        let page = page(&[("book_check", way, fits)], &[cycle], &functions);
        for line in [
            "| `book_check` | 35,264 | `book_check` 64, 200 times `inspect::check_node` 176 |",
            "The cycle of `book.o` is `inspect::check_node`: 176 bytes a level, and at most 200 levels",
            "| Call | 2 KiB | 4 KiB | 8 KiB | 26 KiB |\n|---|---|---|---|---|\n",
            "| `book_check` | nothing | 1 level | 44 levels | any |",
            "| `announcer.o` | `inspect::check_node` | 192 |\n| `book.o` | `book_check` | 1,064 |\n\
             | `book.o` | `inspect::check_node` | 176 |\n",
        ] {
            assert!(page.contains(line), "{page}");
        }
    }

    #[test]
    fn numbers_have_commas() {
        let numbers = [0, 999, 1000, 38_464, 1_234_567].map(grouped);
        assert_eq!(numbers, ["0", "999", "1,000", "38,464", "1,234,567"]);
    }
}
