//! `stopbook ask` from end to end.

mod common;

use common::{place, shared, Folder, Numbers, EXAMPLE, NO_NAMES};
use std::fs;
use std::process::Command;

#[test]
fn the_rows_of_the_documents_are_answered_in_words() {
    let folder = Folder::with("mar.book", EXAMPLE);
    let rows = [
        ("exact", "Marina", 0, "Marina is stop 1"),
        (
            "exact",
            "Marin",
            1,
            "Marin is no stop; it would stand between Mar and Marina",
        ),
        ("place", "", 0, "\"\" would stand at 0, first, before Mar"),
        (
            "place",
            "Mark",
            0,
            "Mark would stand at 2, between Marina and Market Square",
        ),
        (
            "place",
            "Maxim",
            0,
            "Maxim would stand at 3, last, after Market Square",
        ),
        (
            "place",
            "Marina",
            0,
            "Marina stands at 1, between Mar and Market Square",
        ),
        (
            "range",
            "Mar",
            0,
            "3 names begin with Mar\n  0 Mar\n  1 Marina\n  2 Market Square",
        ),
        (
            "range",
            "Mark",
            0,
            "1 name begins with Mark\n  2 Market Square",
        ),
        (
            "range",
            "Mas",
            1,
            "no name begins with Mas; it would stand last, after Market Square",
        ),
        (
            "nearest",
            "Mango",
            0,
            "nearest to Mango is [Ma]r, stop 0; 2 bytes lit",
        ),
        (
            "nearest",
            "Maxim",
            0,
            "nearest to Maxim is [Ma]rina, stop 1; 2 bytes lit",
        ),
        (
            "nearest",
            "M",
            0,
            "nearest to M is [M]ar, stop 0; 1 byte lit",
        ),
        (
            "width",
            "",
            0,
            "the longest name that begins with \"\" has 13 bytes",
        ),
        (
            "width",
            "Mari",
            0,
            "the longest name that begins with Mari has 6 bytes",
        ),
        (
            "width",
            "Mas",
            1,
            "no name begins with Mas, so the width is 0",
        ),
    ];
    for (kind, question, status, answer) in rows {
        let ran = folder.run(&["ask", "mar.book", kind, question]);
        ran.assert(status, &format!("{answer}\n"));
    }
    let ran = folder.run(&["ask", "mar.book", "nearest", "Zoo"]);
    ran.assert(
        0,
        "no name shares a beginning with Zoo; the search ends at Mar, stop 0\n",
    );
}

#[test]
fn the_same_rows_are_answered_from_standard_input() {
    let folder = Folder::with("mar.book", EXAMPLE);
    let lines =
        "exact Marina\r\nexact Marin\n\nrange\nnearest Maxim\nwidth Mar\nplace Market Square";
    let expected = "line 1: Marina is stop 1\n\
                    line 2: Marin is no stop; it would stand between Mar and Marina\n\
                    line 4: 3 names begin with \"\"\n  0 Mar\n  and 2 more\n\
                    line 5: nearest to Maxim is [Ma]rina, stop 1; 2 bytes lit\n\
                    line 6: the longest name that begins with Mar has 13 bytes\n\
                    line 7: Market Square stands at 2, last, after Marina\n";
    let ran = folder.run_with(&["ask", "mar.book", "--limit", "1"], lines.as_bytes());
    ran.assert(0, expected);
}

#[test]
fn a_bad_line_is_named_and_the_others_are_answered() {
    let folder = Folder::with("mar.book", EXAMPLE);
    let lines = format!(
        "exact Mar\nfind Mar\nplace {}\nexact Marina\n",
        "x".repeat(201)
    );
    let ran = folder.run_with(&["ask", "mar.book"], lines.as_bytes());
    assert_eq!(
        (ran.status, ran.out()),
        (1, "line 1: Mar is stop 0\nline 4: Marina is stop 1\n")
    );
    assert!(ran.err.contains("standard input, line 2: find is no kind"));
    assert!(ran
        .err
        .contains("standard input, line 3: the question has 201 bytes"));
}

#[test]
fn answers_and_refusals_come_in_the_order_of_the_lines() {
    let folder = Folder::with("mar.book", EXAMPLE);
    // Both outputs in one file, as on a terminal.
    let file = fs::File::create(folder.path().join("said")).expect("a file can be made");
    folder.write(
        "asked",
        b"exact Mar\nfind Mar\nplace Zoo\n\nMar\nwidth Mari\n",
    );
    let asked = fs::File::open(folder.path().join("asked")).expect("it is there");
    let status = Command::new(env!("CARGO_BIN_EXE_stopbook"))
        .args(["ask", "mar.book"])
        .current_dir(folder.path())
        .stdin(asked)
        .stderr(file.try_clone().expect("a file has many handles"))
        .stdout(file)
        .status()
        .expect("the program starts");
    assert_eq!(status.code(), Some(1));
    let begin = "begin the line with exact, place, range, nearest or width";
    let expected = format!(
        "line 1: Mar is stop 0\n\
         stopbook: standard input, line 2: find is no kind; {begin}\n\
         line 3: Zoo would stand at 3, last, after Market Square\n\
         stopbook: standard input, line 5: Mar is no kind; {begin}\n\
         line 6: the longest name that begins with Mari has 6 bytes\n"
    );
    assert_eq!(String::from_utf8(folder.read("said")).unwrap(), expected);
}

#[test]
fn programs_get_a_line_of_fields_for_each_question() {
    let folder = Folder::with("mar.book", EXAMPLE);
    let long = "x".repeat(201);
    let lines = format!(
        "exact Marina\nexact Marin\n\nplace Mark\nrange Mar\nrange Mas\nnearest Mango\n\
         width Mari\nwidth Mas\nfind Mar\nplace {long}\nexact a\tb\\\nrange\n"
    );
    let expected = format!(
        "1\texact\tyes\t1\t-\tMarina\n\
         2\texact\tno\t-\t-\tMarin\n\
         4\tplace\tyes\t2\t-\tMark\n\
         5\trange\tyes\t0\t3\tMar\n\
         6\trange\tno\t3\t0\tMas\n\
         7\tnearest\tyes\t0\t2\tMango\n\
         8\twidth\tyes\t6\t-\tMari\n\
         9\twidth\tno\t0\t-\tMas\n\
         10\t-\trefused\t-\t-\tfind Mar\n\
         11\tplace\trefused\t-\t-\t{long}\n\
         12\texact\tno\t-\t-\ta\\09b\\5C\n\
         13\trange\tyes\t0\t3\t\n"
    );
    let ran = folder.run_with(&["ask", "mar.book", "--tsv"], lines.as_bytes());
    assert_eq!((ran.status, ran.out()), (1, expected.as_str()));
    assert_eq!(ran.err.lines().count(), 2);
    assert!(ran.err.contains("standard input, line 10: find is no kind"));
    assert!(ran
        .err
        .contains("standard input, line 11: the question has 201 bytes"));
    // One question on the command line counts as the first line.
    for (line, status) in expected.lines().zip([0, 1, 0, 0, 1, 0, 0, 1]) {
        let fields: Vec<&str> = line.split('\t').collect();
        let ran = folder.run(&["ask", "mar.book", fields[1], fields[5], "--tsv"]);
        let (_, rest) = line.split_once('\t').expect("there are fields");
        ran.assert(status, &format!("1\t{rest}\n"));
    }
    let ran = folder.run(&["ask", "mar.book", "exact", &long, "--tsv"]);
    assert_eq!(ran.out(), format!("1\texact\trefused\t-\t-\t{long}\n"));
    assert!(ran.status == 1 && ran.err.contains("201 bytes"));
}

#[test]
fn numbers_for_people_have_commas_and_those_for_programs_none() {
    let names: String = (0..2_000).map(|number| format!("{number:04}\n")).collect();
    let folder = Folder::with("n.txt", names.as_bytes());
    assert_eq!(folder.run(&["build", "n.txt"]).status, 0);
    let run = |kind, text| folder.run(&["ask", "n.book", kind, text, "--limit", "1"]);
    run("exact", "1999").assert(0, "1999 is stop 1,999\n");
    run("place", "1500").assert(0, "1500 stands at 1,500, between 1499 and 1501\n");
    let text = "2,000 names begin with \"\"\n  0 0000\n  and 1,999 more\n";
    run("range", "").assert(0, text);
    run("range", "1999").assert(0, "1 name begins with 1999\n  1,999 1999\n");
    let text = "nearest to 1999x is [1999], stop 1,999; 4 bytes lit\n";
    run("nearest", "1999x").assert(0, text);
    let lines = "\n".repeat(1_233) + "exact 1999\n";
    let ran = folder.run_with(&["ask", "n.book"], lines.as_bytes());
    ran.assert(0, "line 1,234: 1999 is stop 1,999\n");
    let ran = folder.run_with(&["ask", "n.book", "--tsv"], lines.as_bytes());
    ran.assert(0, "1234\texact\tyes\t1999\t-\t1999\n");
}

#[test]
fn where_nothing_is_lit_no_empty_brackets_are_printed() {
    let folder = Folder::with("mar.book", EXAMPLE);
    for question in ["", "Zoo", "mar"] {
        let ran = folder.run(&["ask", "mar.book", "nearest", question]);
        assert_eq!(ran.status, 0);
        assert!(!ran.out().contains('['), "{}", ran.out());
    }
}

#[test]
fn a_question_that_begins_with_a_dash_gets_a_hint() {
    let folder = Folder::with("mar.book", EXAMPLE);
    for question in ["-Mar", "--Mar", "-1"] {
        let ran = folder.run(&["ask", "mar.book", "exact", question]);
        let hint = format!(
            "there is no option {question}; for a question or a file of that name \
             put -- before it: -- {question}"
        );
        ran.assert_fails(2, &[&hint, "see: stopbook ask --help"]);
        // What the hint says does help.
        let ran = folder.run(&["ask", "mar.book", "exact", "--", question]);
        assert!(ran.out().starts_with(&format!("{question} is no stop")));
    }
}

#[test]
fn questions_have_200_bytes_at_most() {
    let folder = Folder::with("mar.book", EXAMPLE);
    let (fine, long) = ("M".repeat(200), "M".repeat(201));
    assert_eq!(folder.run(&["ask", "mar.book", "place", &fine]).status, 0);
    for kind in ["exact", "place", "range", "nearest", "width"] {
        let ran = folder.run(&["ask", "mar.book", kind, &long]);
        ran.assert_fails(1, &["the question has 201 bytes, and 200 are the most"]);
    }
}

#[test]
fn a_book_without_names_is_asked() {
    let folder = Folder::with("none.book", NO_NAMES);
    let run = |kind| folder.run(&["ask", "none.book", kind, "Mar"]);
    run("exact").assert(1, "Mar is no stop; it would stand alone\n");
    run("place").assert(0, "Mar would stand at 0, alone\n");
    run("range").assert(1, "no name begins with Mar; it would stand alone\n");
    run("width").assert(1, "no name begins with Mar, so the width is 0\n");
    run("nearest").assert_fails(1, &["none.book has no names"]);
    let ran = folder.run_with(&["ask", "none.book"], b"nearest Mar\nplace Mar\n");
    assert_eq!(
        (ran.status, ran.out()),
        (1, "line 2: Mar would stand at 0, alone\n")
    );
    assert!(ran.err.contains("line 1: none.book has no names"));
}

#[test]
fn a_question_need_not_be_text() {
    let folder = Folder::with("mar.book", EXAMPLE);
    let ran = folder.run_with(&["ask", "mar.book"], b"nearest Mar\xFF\nplace Mar\\\n");
    let expected = "line 1: nearest to Mar\\FF is [Mar], stop 0; 3 bytes lit\n\
                    line 2: Mar\\5C would stand at 1, between Mar and Marina\n";
    ran.assert(0, expected);
}

#[test]
fn no_half_letter_is_lit() {
    let folder = Folder::with("c.txt", "Café\nCafétéria\nZoo\n".as_bytes());
    assert_eq!(folder.run(&["build", "c.txt"]).status, 0);
    let rows = [
        ("Cafe", "[Caf]é, stop 0; 3 bytes lit"),
        ("Cafè", "[Caf]é, stop 0; 3 bytes lit"),
        ("Cafés", "[Café], stop 0; 5 bytes lit"),
        ("Cafétè", "[Cafét]éria, stop 1; 6 bytes lit"),
        ("Cafété", "[Cafété]ria, stop 1; 8 bytes lit"),
    ];
    for (question, answer) in rows {
        let ran = folder.run(&["ask", "c.book", "nearest", question]);
        ran.assert(0, &format!("nearest to {question} is {answer}\n"));
    }
    // What ends inside a letter is lit in full; what shares half of its first
    // letter is not lit at all.
    folder.write("e.txt", "Évry\n".as_bytes());
    assert_eq!(folder.run(&["build", "e.txt"]).status, 0);
    let ran = folder.run_with(&["ask", "e.book"], b"nearest \xC3\nnearest \xC3\x88ze\n");
    let expected = "line 1: nearest to \\C3 is [\\C3]\\89vry, stop 0; 1 byte lit\n\
                    line 2: no name shares a beginning with Èze; the search ends at Évry, stop 0\n";
    ran.assert(0, expected);
}

/// What questions for the nearest of the sample's stops get, of a plain and of a
/// folded book; nothing where no name shares a beginning.
const NEAREST: [(&str, &str, &str); 9] = [
    // What stands behind the first difference does not count.
    ("plain", "Marknet Square", "[Mark]et Square, stop 13; 4"),
    ("plain", "Old Marina", "[Old M]ill, stop 15; 5"),
    ("folded", "Old Marina", "[Old M]ill, stop 15; 5"),
    // Capitals count in a plain book and not in a folded one.
    ("plain", "market sq", ""),
    ("plain", "MARKET SQ", "[M]ar, stop 11; 1"),
    ("folded", "market sq", "[Market Sq]uare, stop 13; 9"),
    ("folded", "MARKET SQ", "[Market Sq]uare, stop 13; 9"),
    // A letter without its accent is another one, in both.
    ("plain", "Ecole", ""),
    ("folded", "Ecole", ""),
];

#[test]
fn nearest_is_the_longest_common_beginning_and_no_likeness() {
    let folder = Folder::with("n.txt", include_bytes!("../../../sample/stops.txt"));
    for words in [&["-o", "plain"][..], &["--fold", "-o", "folded"]] {
        let ran = folder.run(&[&["build", "n.txt"], words].concat());
        assert_eq!((ran.status, ran.err.as_str()), (0, ""));
    }
    for (book, question, answer) in NEAREST {
        let ran = folder.run(&["ask", book, "nearest", question]);
        match answer {
            "" => {
                let none = format!("no name shares a beginning with {question}; ");
                assert!(ran.out().starts_with(&none), "{}", ran.out());
            }
            _ => {
                let one = if answer.ends_with(" 1") { "" } else { "s" };
                let expected = format!("nearest to {question} is {answer} byte{one} lit\n");
                ran.assert(0, &expected);
            }
        }
    }
}

#[test]
fn the_help_says_what_nearest_is_and_what_it_is_not() {
    let help = Folder::new().run(&["ask", "--help"]);
    for part in [
        "longest common beginning",
        "Nearest counts bytes",
        "capitals count",
        "A folded book counts letters, whatever their case",
        "Old Marina gets Old Mill and not Marina",
    ] {
        assert!(help.out().contains(part), "{part}");
    }
}

/// Where something stands that has so many names before it.
fn between(names: &[String], before: usize, behind: usize) -> String {
    let left = before.checked_sub(1).map(|position| &names[position]);
    match (left, names.get(behind)) {
        (Some(left), Some(right)) => format!("between {left} and {right}"),
        (Some(left), None) => format!("last, after {left}"),
        (None, Some(right)) => format!("first, before {right}"),
        (None, None) => "alone".to_string(),
    }
}

/// What the plain list answers to exact, place, range and width.
fn told(names: &[String], kind: &str, question: &str) -> String {
    let place = place(names, question);
    let is_stop = names.get(place).is_some_and(|name| name == question);
    let outside = between(names, place, place);
    match (kind, is_stop) {
        ("exact", true) => format!("{question} is stop {place}\n"),
        ("exact", false) => format!("{question} is no stop; it would stand {outside}\n"),
        ("place", true) => {
            let inside = between(names, place, place + 1);
            format!("{question} stands at {place}, {inside}\n")
        }
        ("place", false) => format!("{question} would stand at {place}, {outside}\n"),
        ("width", _) => width(names, question),
        _ => range(names, question, &outside),
    }
}

/// What the plain list answers to width.
fn width(names: &[String], question: &str) -> String {
    let found = names.iter().filter(|name| name.starts_with(question));
    match found.map(String::len).max() {
        None => format!("no name begins with {question}, so the width is 0\n"),
        Some(1) => format!("the longest name that begins with {question} has 1 byte\n"),
        Some(most) => format!("the longest name that begins with {question} has {most} bytes\n"),
    }
}

/// What the plain list answers to range.
fn range(names: &[String], question: &str, outside: &str) -> String {
    let found: Vec<(usize, &String)> = names
        .iter()
        .enumerate()
        .filter(|(_, name)| name.starts_with(question))
        .collect();
    let mut text = match found.len() {
        0 => return format!("no name begins with {question}; it would stand {outside}\n"),
        1 => format!("1 name begins with {question}\n"),
        count => format!("{count} names begin with {question}\n"),
    };
    for (position, name) in found {
        text.push_str(&format!("  {position} {name}\n"));
    }
    text
}

#[test]
fn random_questions_get_what_the_plain_list_says() {
    let mut numbers = Numbers(23);
    let names = numbers.names(300);
    let folder = Folder::with("n.txt", names.join("\n").as_bytes());
    assert_eq!(folder.run(&["build", "n.txt", "--block", "7"]).status, 0);
    let mut lines = String::new();
    let mut expected = String::new();
    for number in 0..400 {
        let question = match number % 3 {
            0 => names[numbers.below(names.len())].clone(),
            _ => numbers.word(6),
        };
        let kind = ["exact", "place", "range", "width"][numbers.below(4)];
        lines.push_str(&format!("{kind} {question}\n"));
        expected.push_str(&format!("line {}: ", number + 1));
        expected.push_str(&told(&names, kind, &question));
    }
    let ran = folder.run_with(&["ask", "n.book", "--limit", "2000"], lines.as_bytes());
    ran.assert(0, &expected);
}

/// How many leading bytes of two texts are those of letters that both have.
fn in_letters(one: &str, other: &str) -> usize {
    let both = one.chars().zip(other.chars());
    let letters = both.take_while(|(one, other)| one == other);
    letters.map(|(letter, _)| letter.len_utf8()).sum()
}

#[test]
fn the_nearest_name_shares_as_much_as_any_and_its_whole_letters_are_lit() {
    let mut numbers = Numbers(29);
    let names = numbers.names(200);
    let folder = Folder::with("n.txt", names.join("\n").as_bytes());
    assert_eq!(folder.run(&["build", "n.txt"]).status, 0);
    let questions: Vec<String> = (0..150).map(|_| numbers.word(9)).collect();
    let lines: String = questions
        .iter()
        .map(|text| format!("nearest {text}\n"))
        .collect();
    let ran = folder.run_with(&["ask", "n.book"], lines.as_bytes());
    assert_eq!((ran.status, ran.err.as_str()), (0, ""));
    assert_eq!(ran.out().lines().count(), questions.len());
    let mut halves = 0;
    for (index, (line, question)) in ran.out().lines().zip(&questions).enumerate() {
        assert!(line.starts_with(&format!("line {}: ", index + 1)), "{line}");
        let most = names.iter().map(|name| shared(name, question)).max();
        let most = most.expect("there are names");
        let (_, rest) = line.split_once(", stop ").expect("a position is told");
        let (position, rest) = rest.split_once("; ").unwrap_or((rest, "0 bytes lit"));
        let name = &names[position.parse::<usize>().expect("it is a number")];
        assert_eq!(shared(name, question), most, "{line}");
        let lit = in_letters(name, question);
        assert!(rest.starts_with(&format!("{lit} byte")), "{line}");
        if lit > 0 {
            let marked = format!(" is [{}]{}, stop ", &name[..lit], &name[lit..]);
            assert!(line.contains(&marked), "{line}");
        }
        halves += usize::from(lit < most);
    }
    assert!(halves > 10, "{halves}");
}

#[test]
fn wrong_usage_is_told() {
    let folder = Folder::with("mar.book", EXAMPLE);
    let cases: [(&[&str], &str); 7] = [
        (&["ask"], "give a book"),
        (
            &["ask", "mar.book", "range", "M", "--tsv", "--limit", "1"],
            "give one of them",
        ),
        (&["ask", "mar.book", "find", "Mar"], "find is no kind"),
        (&["ask", "mar.book", "exact"], "give a question"),
        (&["ask", "mar.book", "exact", "Market", "Square"], "quotes"),
        (&["ask", "-"], "the book must be a file"),
        (
            &["ask", "mar.book", "range", "M", "--limit", "few"],
            "--limit takes a number",
        ),
    ];
    for (words, text) in cases {
        folder
            .run(words)
            .assert_fails(2, &[text, "see: stopbook ask --help"]);
    }
    // After two dashes a question may begin with one.
    let ran = folder.run(&["ask", "mar.book", "exact", "--", "--Mar"]);
    ran.assert(1, "--Mar is no stop; it would stand first, before Mar\n");
}
