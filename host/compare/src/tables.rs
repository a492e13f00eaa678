//! The figures as a page of Markdown.

use crate::steps::{
    middle_ratio, Figures, Middle, Spread, Step, Subject, LIBRARY, MODEL, REFERENCE, ROWS, SORTED,
};
use format::Kind;

/// What the page says of the names.
pub struct About {
    /// How many names there are.
    pub names: usize,
    /// How many bytes their list has.
    pub list: usize,
    /// How many nodes their tree has.
    pub nodes: usize,
    /// How many questions are asked in each kind.
    pub questions: usize,
    /// How many names either of the two lists has that are merged to all.
    pub merged: [usize; 2],
    /// How many names the folded book has, and how many bytes.
    pub folded: [usize; 2],
    /// How many times everything was timed.
    pub rounds: usize,
    /// What was left out, a sentence each.
    pub left_out: Vec<String>,
}

/// Where there is no such call.
const NONE: &str = "-";

/// A row of a table: its head, and a step.
type Line = (String, Step);

/// The calls that take bytes which nobody has checked.
pub fn whole_lines() -> Vec<Line> {
    let mut lines = vec![
        ("build".to_string(), Step::Build),
        ("check".to_string(), Step::Check),
        ("read".to_string(), Step::Read),
    ];
    lines.extend(Kind::ALL.map(|kind| (kind.name().to_string(), Step::Ask(kind))));
    lines.push((format!("batch of {ROWS}"), Step::Batch));
    lines.push(("salvage".to_string(), Step::Salvage));
    lines
}

/// What is asked after the check.
pub fn held_lines() -> Vec<Line> {
    let mut lines = vec![("read".to_string(), Step::Read)];
    lines.extend(Kind::ALL.map(|kind| (kind.name().to_string(), Step::Ask(kind))));
    lines
}

/// The page.
pub fn page(about: &About, subjects: &[Subject], figures: &Figures) -> String {
    let sections = [
        head(about),
        sizes(about, subjects),
        whole_instructions(subjects, figures),
        held_instructions(subjects, figures),
        times(about, subjects, figures),
        stacks(subjects, figures),
        merging(about, subjects, figures),
        folding(about, subjects, figures),
    ];
    sections.join("\n")
}

/// What was measured with.
fn head(about: &About) -> String {
    let mut text = format!(
        "# Mistrogu beside other ways to keep names

Measured with {} names like those of stations: {} bytes of list, {} nodes. The {} questions are names, beginnings, extensions, near misses
and strangers, a fifth each, the same ones on every run. Every answer was compared with the second program's,
marisa's as far as they go.

- **Mistrogu** is the proved library. It trusts no byte: **a single question checks the whole book before it answers**, and so does a
  read; nothing is kept between calls. A batch checks once for all its rows.
- **The reference** is careful Rust without index tests or a heap, which nothing proves: one slip in it reads or writes what is not its
  own. It checks before it answers, too, and is there to be measured alone.
- **The second program** is the plain model that tests are made from. It opens the book anew for each call, too, and is not meant to be
  fast. It was asked one question of each shape.
- **The sorted array** is the list with an offset for each name, searched by halving. It needs no check because it trusts whoever made
  it: an array that is out of order gives wrong answers, and a wrong offset stops the program. For a width it looks at each name of the range.
- **marisa** and **fst**, where they are here, trust their bytes as well, and need a heap. marisa numbers names in its own way: its exact
  question tells whether there is such a name, its range only how many there are, found one by one. fst maps names to positions.
  Neither has something like nearest or width.

![Instructions of each call](benchmark.svg)
",
        grouped(about.names as f64),
        grouped(about.list as f64),
        grouped(about.nodes as f64),
        about.questions,
    );
    if !about.left_out.is_empty() {
        text += &format!("\n{}\n", about.left_out.join(" "));
    }
    text
}

/// How many bytes the names are kept in.
fn sizes(about: &About, subjects: &[Subject]) -> String {
    let mut text = "## Size\n\n| Kept as | Bytes |\n|---|---:|\n".to_string();
    let mut row = |kept: &str, bytes: usize| {
        text += &format!("| {kept} | {} |\n", grouped(bytes as f64));
    };
    row("plain list: a length byte, then the name", about.list);
    for (number, subject) in subjects.iter().enumerate() {
        match number {
            LIBRARY => row("book, with blocks of 16", subject.size),
            REFERENCE | MODEL => {}
            SORTED => row("sorted array: list and offsets of four bytes", subject.size),
            _ => row(&format!("dictionary of {}", subject.name), subject.size),
        }
    }
    text
}

/// Instructions of single calls.
fn whole_instructions(subjects: &[Subject], figures: &Figures) -> String {
    let row = |(name, step): Line| counted(figures, subjects, &name, step);
    let rows: Vec<Vec<String>> = whole_lines().into_iter().map(row).collect();
    format!(
        "## Instructions of a call of its own\n\nThe average of all inputs, with 20 to 30 instructions of the caller; in brackets, how many times \
         Mistrogu's they are. A single question to Mistrogu is nearly all check; what the question itself takes is in the next table.\n\n{}",
        table("Call", subjects, &rows)
    )
}

/// A row of instructions.
fn counted(figures: &Figures, subjects: &[Subject], name: &str, step: Step) -> Vec<String> {
    beside(subjects, name, |subject| {
        let mean = figures.whole(subject, step)?.mean;
        Some((mean, grouped(mean)))
    })
}

/// A row of numbers, each with the text that shows it. Those of the others have
/// behind them how many times the library's they are.
fn beside(
    subjects: &[Subject],
    name: &str,
    of: impl Fn(usize) -> Option<(f64, String)>,
) -> Vec<String> {
    let library = of(LIBRARY);
    let cells = (0..subjects.len()).map(|subject| match (of(subject), &library) {
        (None, _) => NONE.to_string(),
        (Some((number, shown)), Some((own, _))) if subject != LIBRARY => {
            format!("{shown} ({})", ratio(number / own))
        }
        (Some((_, shown)), _) => shown,
    });
    [vec![name.to_string()], cells.collect()].concat()
}

/// Instructions after the check.
fn held_instructions(subjects: &[Subject], figures: &Figures) -> String {
    let row = |(name, step): Line| {
        beside(subjects, &name, |subject| {
            let Spread { mean, most } = figures.held(subject, step)?;
            Some((mean, format!("{} / {}", grouped(mean), grouped(most))))
        })
    };
    let mut rows: Vec<Vec<String>> = held_lines().into_iter().map(row).collect();
    for (name, with_check) in [
        ("row of a batch, with its 64th of the check", true),
        ("row of a batch, without", false),
    ] {
        rows.push(beside(subjects, name, |subject| {
            let whole = figures.whole(subject, Step::Batch)?.mean;
            let check = figures.whole(subject, Step::Check);
            let check = check
                .filter(|_| !with_check)
                .map_or(0.0, |check| check.mean);
            let of_row = (whole - check) / ROWS as f64;
            Some((of_row, grouped(of_row)))
        }));
    }
    format!(
        "## Instructions after the check: average / most\n\nOf Mistrogu and the reference: a single call less the check. Of the second program: the question to \
         the names, once the book is open. The others have no check, so it is the call itself. In brackets, how many times Mistrogu's average theirs is.\n\n{}",
        table("Asked", subjects, &rows)
    )
}

/// Times as ratios.
fn times(about: &About, subjects: &[Subject], figures: &Figures) -> String {
    let check = figures.whole_times(LIBRARY, Step::Check);
    let row = |name: String, of: &dyn Fn(usize) -> Option<Vec<f64>>| {
        let library = of(LIBRARY);
        let cells = (0..subjects.len()).map(|subject| {
            let base = if subject == LIBRARY { &check } else { &library };
            match (of(subject), base) {
                (Some(times), Some(base)) => ratios(middle_ratio(&times, base)),
                _ => NONE.to_string(),
            }
        });
        [vec![name], cells.collect()].concat()
    };
    let mut rows = Vec::new();
    for (name, step) in whole_lines() {
        rows.push(row(name, &|subject| figures.whole_times(subject, step)));
    }
    for (name, step) in held_lines() {
        let name = format!("{name}, after the check");
        rows.push(row(name, &|subject| figures.held_times(subject, step)));
    }
    rows.retain(|row| row[1] != NONE);
    format!(
        "## Time\n\nIn Mistrogu's column its check is 1. In the others Mistrogu's time in the same row is 1: 1/2,000 is the two \
         thousandth part of it. Processor time, by turns in one process: in each of {} rounds those of a row are sampled one after the other, call by call \
         where a call is long enough to be timed, at four places of the stack, of which the least counts. Before each sample branches are taken that can't be foretold, so \
         that the processor knows none of the call's own, as when a guest did something else before; made again and again with the same bytes, some calls take less than \
         half that time. Given is the median of the rounds' ratios; in \
         brackets the least and the most of their middle eight tenths, where that is not the same. After the check, the time of Mistrogu and of the reference is a \
         64th of what a batch of that kind takes more than the check, and the others are sampled beside it.\n\n{}\n{}",
        about.rounds,
        table("Call", subjects, &rows),
        CAUTION
    )
}

/// What times can tell, and what they can't.
const CAUTION: &str = "\
What can be concluded: which of two is faster, where they differ by a tenth at least, and by more than the brackets do. What can't: anything from less, or \
about another processor; ratios of other days and machines can't be compared with these. Where the processor knows a call's branches, or the stack begins at \
a bad place in a page of memory, a time moves by up to half on some machines: both are kept out here, as far as that can be, but the code lies where the \
linker put it. Instructions depend on none of this.
";

/// Stacks.
fn stacks(subjects: &[Subject], figures: &Figures) -> String {
    let row = |(name, step): Line| {
        let cells = (0..subjects.len()).map(|subject| {
            let depth = figures.stacks.get(&(subject, step));
            depth.map_or(NONE.to_string(), |&depth| grouped(depth as f64))
        });
        [vec![name], cells.collect()].concat()
    };
    let rows: Vec<Vec<String>> = whole_lines().into_iter().map(row).collect();
    format!(
        "## Stack in bytes\n\nThe deepest of all inputs, with the measuring's own frames, under 100 bytes. What is on the heap is not counted: \
         Mistrogu, the reference and the sorted array use none.\n\n{}",
        table("Call", subjects, &rows)
    )
}

/// Two lists merged: a row for each subject that can.
fn merging(about: &About, subjects: &[Subject], figures: &Figures) -> String {
    let shown = |cell: Option<String>| cell.unwrap_or(NONE.to_string());
    let times = |subject| figures.whole_times(subject, Step::Merge);
    let counts = counted(figures, subjects, "", Step::Merge);
    let row = |subject: usize| {
        let count = counts.get(subject + 1).filter(|&count| count != NONE)?;
        let base = times(LIBRARY);
        let time = times(subject).zip(base);
        let depth = figures.stacks.get(&(subject, Step::Merge));
        Some(format!(
            "| {} | {count} | {} | {} |\n",
            subjects[subject].name,
            shown(time.map(|(times, base)| ratios(middle_ratio(&times, &base)))),
            shown(depth.map(|&depth| grouped(depth as f64))),
        ))
    };
    let rows: String = (0..subjects.len()).filter_map(row).collect();
    let sort = figures.sort as f64;
    let library = figures.whole(LIBRARY, Step::Merge);
    let sort_ratio = library.map_or(String::new(), |own| {
        format!(" ({})", ratio(sort / own.mean))
    });
    let [first, second] = about.merged;
    format!(
        "## Two lists merged\n\nLists of {} and {} names, {} of them in both, are merged to the list of all. Mistrogu and the reference judge both \
         lists, then go over them to count and once more to write. `sort -mu` merges lines of the same names by their bytes (LC_ALL=C), and judges \
         nothing; what it takes for two empty files is taken off. Brackets and times are those of the tables above.\n\n\
         | | Instructions | Time | Stack in bytes |\n|---|---:|---:|---:|\n{rows}| `sort -mu` of the lines | {}{sort_ratio} | {NONE} | {NONE} |\n",
        grouped(first as f64),
        grouped(second as f64),
        grouped((first + second - about.names) as f64),
        grouped(sort),
    )
}

/// Plain and folded books, built and checked.
fn folding(about: &About, subjects: &[Subject], figures: &Figures) -> String {
    let row = |(name, step): (&str, Step)| counted(figures, subjects, name, step);
    let rows = [
        ("build, plain", Step::Build),
        ("build, folded", Step::BuildFolded),
        ("check, plain", Step::Check),
        ("check, folded", Step::CheckFolded),
    ];
    let [names, bytes] = about.folded;
    format!(
        "## Plain and folded books\n\nInstructions of building and checking the same names as a plain and as a folded book, which takes capitals as small \
         letters: {} names, {} bytes.\n\n{}",
        grouped(names as f64),
        grouped(bytes as f64),
        table("Call", subjects, &rows.map(row))
    )
}

/// A table with a column for each subject.
fn table(corner: &str, subjects: &[Subject], rows: &[Vec<String>]) -> String {
    let names = subjects.iter().map(|subject| subject.name.as_str());
    let head: Vec<&str> = [corner].into_iter().chain(names).collect();
    let mut text = format!(
        "| {} |\n|---|{}\n",
        head.join(" | "),
        "---:|".repeat(subjects.len())
    );
    for row in rows {
        text += &format!("| {} |\n", row.join(" | "));
    }
    text
}

/// A number without its fraction, in groups of three digits.
pub fn grouped(number: f64) -> String {
    let digits = format!("{:.0}", number.abs());
    let mut text = String::new();
    for (at, digit) in digits.chars().enumerate() {
        if at > 0 && (digits.len() - at).is_multiple_of(3) {
            text.push(',');
        }
        text.push(digit);
    }
    let sign = if number < 0.0 && digits != "0" {
        "-"
    } else {
        ""
    };
    sign.to_string() + &text
}

/// A ratio with two digits that count; a small one as one part of so many.
pub fn ratio(ratio: f64) -> String {
    if ratio >= 9.95 {
        grouped(two_digits(ratio))
    } else if ratio >= 0.2 {
        format!("{ratio:.2}")
    } else if ratio > 0.0 {
        format!("1/{}", grouped(two_digits(1.0 / ratio)))
    } else {
        NONE.to_string()
    }
}

/// A ratio with its spread, where that can be seen.
pub fn ratios(middle: Middle) -> String {
    let [median, least, most] = [middle.median, middle.least, middle.most].map(ratio);
    if least == median && most == median {
        median
    } else {
        format!("{median} ({least}-{most})")
    }
}

/// The number rounded to its first two digits.
fn two_digits(number: f64) -> f64 {
    let unit = 10f64.powf(number.log10().floor() - 1.0).max(1.0);
    (number / unit).round() * unit
}

#[cfg(test)]
mod tests {
    use super::{grouped, ratio, ratios};
    use crate::steps::Middle;

    #[test]
    fn digits_stand_in_groups_of_three() {
        let shown = [0.0, 999.4, 1000.0, 1_234_567.0, -1234.0, -0.2].map(grouped);
        assert_eq!(shown, ["0", "999", "1,000", "1,234,567", "-1,234", "0"]);
    }

    #[test]
    fn a_ratio_has_two_digits_or_is_one_part_of_so_many() {
        let shown = [1.0, 0.25, 0.1, 0.0004762, 12.4, 1234.0, 0.0].map(ratio);
        assert_eq!(
            shown,
            ["1.00", "0.25", "1/10", "1/2,100", "12", "1,200", "-"]
        );
    }
    #[test]
    fn a_spread_is_shown_where_it_can_be_seen() {
        let shown = |median, least, most| {
            ratios(Middle {
                median,
                least,
                most,
            })
        };
        assert_eq!(shown(1.22, 1.2, 1.25), "1.22 (1.20-1.25)");
        assert_eq!(shown(1.0, 0.999, 1.004), "1.00");
        assert_eq!(shown(0.001, 0.0005, 0.002), "1/1,000 (1/2,000-1/500)");
    }
}
