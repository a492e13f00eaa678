//! `stopbook ask --looked` from end to end: how far each question looked.

mod common;

use common::{Folder, Numbers, EXAMPLE, NO_NAMES};

/// How a line begins that tells how far a question looked.
const LOOKED: &str = "  looked at ";

const KINDS: [&str; 5] = ["exact", "place", "range", "nearest", "width"];

/// Lines without those that tell how far a question looked.
fn without_looked(text: &str) -> String {
    let lines = text.split_inclusive('\n');
    lines.filter(|line| !line.starts_with(LOOKED)).collect()
}

/// The last two fields of a line, which say how far its question looked.
fn last_fields(line: &str) -> (usize, usize) {
    let mut fields = line.rsplit('\t').map(|field| field.parse().unwrap());
    let entries = fields.next().expect("there are fields");
    (fields.next().expect("there are fields"), entries)
}

#[test]
fn behind_an_answer_stands_how_far_its_question_looked() {
    let folder = Folder::with("mar.book", EXAMPLE);
    let rows = [
        ("exact", "Marina", 0, "2 nodes and 2 entries"),
        ("exact", "Marin", 1, "2 nodes and 2 entries"),
        ("place", "", 0, "1 node and 1 entry"),
        ("place", "Mark", 0, "2 nodes and 1 entry"),
        ("range", "Mar", 0, "2 nodes and 1 entry"),
        ("range", "Mas", 1, "2 nodes and 1 entry"),
        ("nearest", "Mango", 0, "1 node and 1 entry"),
        ("nearest", "Maxim", 0, "2 nodes and 2 entries"),
        ("width", "Mari", 0, "2 nodes and 2 entries"),
    ];
    for (kind, question, status, looked) in rows {
        let words = ["ask", "mar.book", kind, question];
        let answer = folder.run(&words);
        let ran = folder.run(&[&words[..], &["--looked"]].concat());
        ran.assert(status, &format!("{}{LOOKED}{looked}\n", answer.out()));
    }
}

#[test]
fn behind_a_range_it_stands_under_the_names() {
    let folder = Folder::with("mar.book", EXAMPLE);
    let ran = folder.run(&["ask", "mar.book", "range", "", "--limit", "1", "--looked"]);
    let expected =
        "3 names begin with \"\"\n  0 Mar\n  and 2 more\n  looked at 1 node and 1 entry\n";
    ran.assert(0, expected);
}

#[test]
fn lines_of_standard_input_are_told_it_each() {
    let folder = Folder::with("mar.book", EXAMPLE);
    let long = "x".repeat(201);
    let lines = format!("exact Marina\n\nfind Mar\nplace {long}\nnearest Mango\n");
    let ran = folder.run_with(&["ask", "mar.book", "--looked"], lines.as_bytes());
    let expected = "line 1: Marina is stop 1\n  looked at 2 nodes and 2 entries\n\
                    line 5: nearest to Mango is [Ma]r, stop 0; 2 bytes lit\n  \
                    looked at 1 node and 1 entry\n";
    assert_eq!((ran.status, ran.out()), (1, expected));
    assert!(ran.err.contains("line 3: find is no kind"));
    assert!(ran.err.contains("line 4: the question has 201 bytes"));
}

#[test]
fn programs_get_two_fields_more() {
    let folder = Folder::with("mar.book", EXAMPLE);
    let long = "x".repeat(201);
    let lines = format!(
        "exact Marina\nexact Marin\nplace Mark\nrange Mar\nnearest Mango\nwidth Mas\n\
         find Mar\nplace {long}\nexact a\tb\n"
    );
    let expected = format!(
        "1\texact\tyes\t1\t-\tMarina\t2\t2\n\
         2\texact\tno\t-\t-\tMarin\t2\t2\n\
         3\tplace\tyes\t2\t-\tMark\t2\t1\n\
         4\trange\tyes\t0\t3\tMar\t2\t1\n\
         5\tnearest\tyes\t0\t2\tMango\t1\t1\n\
         6\twidth\tno\t0\t-\tMas\t2\t1\n\
         7\t-\trefused\t-\t-\tfind Mar\t0\t0\n\
         8\tplace\trefused\t-\t-\t{long}\t0\t0\n\
         9\texact\tno\t-\t-\ta\\09b\t2\t1\n"
    );
    let words = ["ask", "mar.book", "--tsv", "--looked"];
    let ran = folder.run_with(&words, lines.as_bytes());
    assert_eq!((ran.status, ran.out()), (1, expected.as_str()));
    assert_eq!(ran.err.lines().count(), 2);
    // One question on the command line counts as the first line.
    for (line, status) in expected.lines().zip([0, 1, 0, 0, 0, 1]) {
        let fields: Vec<&str> = line.split('\t').collect();
        let ran = folder.run(&["ask", "mar.book", fields[1], fields[5], "--tsv", "--looked"]);
        let (_, rest) = line.split_once('\t').expect("there are fields");
        ran.assert(status, &format!("1\t{rest}\n"));
    }
}

#[test]
fn a_refused_question_looked_nowhere_and_people_are_told_no_line() {
    let folder = Folder::with("mar.book", EXAMPLE);
    let long = "M".repeat(201);
    for kind in KINDS {
        let words = ["ask", "mar.book", kind, &long, "--looked"];
        let ran = folder.run(&words);
        ran.assert_fails(1, &["the question has 201 bytes"]);
        let ran = folder.run(&[&words[..], &["--tsv"]].concat());
        let line = format!("1\t{kind}\trefused\t-\t-\t{long}\t0\t0\n");
        assert_eq!((ran.status, ran.out()), (1, line.as_str()));
    }
}

#[test]
fn a_book_without_names_has_nothing_to_look_at() {
    let folder = Folder::with("none.book", NO_NAMES);
    for kind in ["exact", "place", "range", "width"] {
        let ran = folder.run(&["ask", "none.book", kind, "Mar", "--looked"]);
        let end = "\n  looked at 0 nodes and 0 entries\n";
        assert!(ran.out().ends_with(end), "{}", ran.out());
    }
    let ran = folder.run(&["ask", "none.book", "nearest", "Mar", "--looked"]);
    ran.assert_fails(1, &["none.book has no names"]);
    let ran = folder.run_with(&["ask", "none.book", "--looked", "--tsv"], b"nearest Mar\n");
    assert_eq!(ran.out(), "1\tnearest\trefused\t-\t-\tMar\t0\t0\n");
}

/// Lines that ask random words of these names, each in all kinds.
fn random_lines(numbers: &mut Numbers, names: &[String]) -> String {
    let mut lines = String::new();
    for number in 0..60 {
        let question = match number % 3 {
            0 => names[numbers.below(names.len())].clone(),
            _ => numbers.word(6),
        };
        for kind in KINDS {
            lines.push_str(&format!("{kind} {question}\n"));
        }
    }
    lines
}

/// A book of random names in blocks of 7, and lines that ask it.
fn random_book() -> (Folder, String) {
    let mut numbers = Numbers(31);
    let names = numbers.names(200);
    let folder = Folder::with("n.txt", names.join("\n").as_bytes());
    assert_eq!(folder.run(&["build", "n.txt", "--block", "7"]).status, 0);
    let lines = random_lines(&mut numbers, &names);
    (folder, lines)
}

#[test]
fn answers_are_the_same() {
    let (folder, lines) = random_book();
    let run = |words: &[&str]| {
        let words = [&["ask", "n.book"], words].concat();
        folder.run_with(&words, lines.as_bytes())
    };
    let (plain, looked) = (run(&[]), run(&["--looked"]));
    assert_eq!(without_looked(looked.out()), plain.out());
    let told = looked.out().lines().filter(|line| line.starts_with(LOOKED));
    assert_eq!(told.count(), lines.lines().count());

    let (plain, looked) = (run(&["--tsv"]), run(&["--tsv", "--looked"]));
    assert_eq!(looked.out().lines().count(), plain.out().lines().count());
    for (line, fields) in looked.out().lines().zip(plain.out().lines()) {
        let (visits, entries) = last_fields(line);
        assert_eq!(line, format!("{fields}\t{visits}\t{entries}"));
    }
}

#[test]
fn all_kinds_look_equally_far_and_within_the_bounds() {
    let (folder, lines) = random_book();
    let words = ["ask", "n.book", "--tsv", "--looked"];
    let ran = folder.run_with(&words, lines.as_bytes());
    let all: Vec<&str> = ran.out().lines().collect();
    for five in all.chunks(KINDS.len()) {
        let [_, "nearest", _, position, _, question, ..] =
            five[3].split('\t').collect::<Vec<_>>()[..]
        else {
            panic!("nearest is the fourth kind: {five:?}");
        };
        let far = last_fields(five[3]);
        assert!(five.iter().all(|line| last_fields(line) == far), "{five:?}");
        assert!((1..=question.len() + 2).contains(&far.0), "{five:?}");
        let position: usize = position.parse().expect("it is a number");
        assert_eq!(far.1, position % 7 + 1, "{five:?}");
    }
}

#[test]
fn the_help_says_what_is_counted_and_that_lines_are_asked_one_by_one() {
    let help = Folder::new().run(&["ask", "--help"]);
    for part in ["--looked", "nodes", "entries", "then asked one by one"] {
        assert!(help.out().contains(part), "{part}");
    }
}
