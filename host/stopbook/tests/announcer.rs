//! `stopbook clip` and `stopbook route` from end to end.

mod common;

use common::{Folder, Numbers, EXAMPLE, NO_NAMES};

/// A folder with the book of document 01 and its clips.
fn with_mar() -> Folder {
    let folder = Folder::with("mar.book", EXAMPLE);
    folder.write("clips.txt", b"301\n65535\n0\n");
    folder
}

#[test]
fn a_text_gets_its_clip_or_how_many_names_begin_with_it() {
    let folder = with_mar();
    for (text, status, sentence, fields) in [
        ("Mar", 0, "clip 301: Mar, stop 0", "yes\t301\t-"),
        ("Marina", 0, "clip 65,535: Marina, stop 1", "yes\t65535\t-"),
        (
            "Mark",
            0,
            "clip 0: Market Square, stop 2, the only name that begins with Mark",
            "yes\t0\t-",
        ),
        ("M", 1, "no clip: 3 names begin with M", "no\t-\t3"),
        ("", 1, "no clip: 3 names begin with \"\"", "no\t-\t3"),
        ("Zoo", 1, "no clip: no name begins with Zoo", "no\t-\t0"),
        ("mar", 1, "no clip: no name begins with mar", "no\t-\t0"),
    ] {
        let words = ["clip", "mar.book", "clips.txt", text];
        folder.run(&words).assert(status, &format!("{sentence}\n"));
        let ran = folder.run(&[&words[..], &["--tsv"]].concat());
        ran.assert(status, &format!("{fields}\t{text}\n"));
    }
}

#[test]
fn a_text_that_is_too_long_is_refused() {
    let folder = with_mar();
    let words = ["clip", "mar.book", "clips.txt", &"M".repeat(201)];
    let why = "the text has 201 bytes, and 200 are the most; shorten it";
    folder.run(&words).assert_fails(1, &[why]);
    let ran = folder.run(&[&words[..], &["--tsv"]].concat());
    let line = format!("refused\t-\t-\t{}\n", words[3]);
    assert_eq!((ran.status, ran.out()), (1, line.as_str()));
    assert!(ran.err.contains(why));
    let ran = folder.run(&["clip", "mar.book", "clips.txt", &words[3][1..]]);
    assert_eq!((ran.status, ran.err.as_str()), (1, ""));
}

#[test]
fn a_folded_book_takes_texts_and_names_in_any_case() {
    let folder = Folder::with("names.txt", b"MAR\nMarina\nmarket square\n");
    let ran = folder.run(&["build", "names.txt", "--fold", "-o", "mar.book"]);
    assert_eq!(ran.status, 0);
    folder.write("clips.txt", b"1\n2\n3\n");
    let clip = |text| folder.run(&["clip", "mar.book", "clips.txt", text]);
    clip("mar").assert(0, "clip 1: MAR, stop 0\n");
    let only = "clip 3: market square, stop 2, the only name that begins with MARK\n";
    clip("MARK").assert(0, only);
    let words = ["route", "mar.book", "clips.txt", "--names", "--tsv"];
    let ran = folder.run_with(&words, b"MARINA\nmar\n");
    ran.assert(0, "0\t1\t2\tMarina\n1\t0\t1\tMAR\n");
}

#[test]
fn bad_lines_of_the_clips_are_told_by_number() {
    let folder = with_mar();
    let bad = b"\xEF\xBB\xBF1\r\n\n65536\n-1\n x\x1B\n\xFF\n 7\t\n";
    folder.write("bad.txt", bad);
    for words in [
        &["clip", "mar.book", "bad.txt", "Mar"][..],
        &["route", "mar.book", "bad.txt", "0"],
    ] {
        let parts = [
            "bad.txt, line 2: empty, and every line has the clip of one name\n",
            "bad.txt, line 3: 65536 is no clip; clips are 0 to 65,535\n",
            "bad.txt, line 4: -1 is no clip",
            "bad.txt, line 5: x\\1B is no clip",
            "bad.txt, line 6: \\FF is no clip",
            "bad.txt: 5 bad lines, so no clip is chosen; mend them and try again\n",
        ];
        let ran = folder.run(words);
        ran.assert_fails(1, &parts);
        assert_eq!(ran.err.lines().count(), parts.len());
    }
    let many = "x\n".repeat(2_000);
    let ran = folder.run_with(&["clip", "mar.book", "-", "Mar"], many.as_bytes());
    ran.assert_fails(
        1,
        &["standard input: and 1,980 more bad lines", "2,000 bad"],
    );
    let utf16 = folder.run_with(&["clip", "mar.book", "-", "Mar"], b"\xFF\xFE1\0\n\0");
    utf16.assert_fails(1, &["standard input is UTF-16"]);
    let long = vec![b'0'; 1 << 21];
    let ran = folder.run_with(&["clip", "mar.book", "-", "Mar"], &long);
    ran.assert_fails(1, &["more than 1 MiB"]);
}

#[test]
fn there_is_one_clip_for_each_name() {
    let folder = with_mar();
    folder.write("none.book", NO_NAMES);
    for (book, clips, has) in [
        ("mar.book", "", "has 0 clips, and mar.book has 3 names"),
        (
            "mar.book",
            "1\n2\n",
            "has 2 clips, and mar.book has 3 names",
        ),
        (
            "mar.book",
            "1\n2\n3\n4",
            "has 4 clips, and mar.book has 3 names",
        ),
        ("none.book", "1", "has 1 clip, and none.book has 0 names"),
    ] {
        folder.write("other.txt", clips.as_bytes());
        let why = format!("other.txt {has}; give one clip for each name");
        let long = "M".repeat(201);
        for words in [
            &["clip", book, "other.txt", "Mar"][..],
            &["clip", book, "other.txt", &long],
            &["route", book, "other.txt", "9"],
        ] {
            folder.run(words).assert_fails(1, &[&why]);
        }
    }
    folder.write("empty.txt", b"");
    let ran = folder.run(&["clip", "none.book", "empty.txt", ""]);
    ran.assert(1, "no clip: no name begins with \"\"\n");
    let ran = folder.run(&["route", "none.book", "empty.txt"]);
    ran.assert(0, "the route has no stops\n");
    let ran = folder.run(&["route", "none.book", "empty.txt", "0"]);
    ran.assert_fails(1, &["position 0 is no stop; none.book has no names"]);
}

#[test]
fn what_is_no_book_is_told() {
    let folder = with_mar();
    folder.write("cut.book", &EXAMPLE[1..]);
    for words in [
        &["clip", "cut.book", "clips.txt", "Mar"][..],
        &["route", "cut.book", "clips.txt", "0"],
    ] {
        folder.run(words).assert_fails(1, &["cut.book is no book"]);
    }
}

#[test]
fn a_route_gets_its_clips_by_positions_and_by_names() {
    let folder = with_mar();
    let sentences =
        "the route has 4 stops\n  clip 0: Market Square, stop 2\n  clip 301: Mar, stop 0\n  \
                     clip 0: Market Square, stop 2\n  clip 65,535: Marina, stop 1\n";
    let fields =
        "0\t2\t0\tMarket Square\n1\t0\t301\tMar\n2\t2\t0\tMarket Square\n3\t1\t65535\tMarina\n";
    let route = ["route", "mar.book", "clips.txt"];
    let positions = ["2", "0", "2", "1"];
    let names = ["Market Square", "Mar", "Market Square", "Marina"];
    for (stops, option) in [(positions, &[][..]), (names, &["--names"])] {
        let lines = format!("{}\r\n\n{}\n{}\n{}", stops[0], stops[1], stops[2], stops[3]);
        for (tsv, expected) in [(&[][..], sentences), (&["--tsv"], fields)] {
            let words = [&route[..], &stops, option, tsv].concat();
            folder.run(&words).assert(0, expected);
            let words = [&route[..], option, tsv].concat();
            folder
                .run_with(&words, lines.as_bytes())
                .assert(0, expected);
        }
    }
    folder.run(&route).assert(0, "the route has no stops\n");
    folder.run(&[&route[..], &["--tsv"]].concat()).assert(0, "");
    let ran = folder.run(&[&route[..], &["1"]].concat());
    ran.assert(0, "the route has 1 stop\n  clip 65,535: Marina, stop 1\n");
}

#[test]
fn a_route_is_refused_at_its_first_bad_position_and_nothing_is_printed() {
    let folder = with_mar();
    for tsv in [&[][..], &["--tsv"]] {
        let route = |words: &[&str], lines: &str| {
            let words = [&["route", "mar.book", "clips.txt"], words, tsv].concat();
            folder.run_with(&words, lines.as_bytes())
        };
        let has = "is no stop; mar.book has 3 names, at 0 to 2\n";
        let words = format!("place 1 of the route, counted from 0: position 3 {has}");
        route(&["0", "3", "9", "1"], "").assert_fails(1, &[&words]);
        let line = format!("standard input, line 4: position 2,000 {has}");
        route(&[], "0\n\n1\n2000\n3\n").assert_fails(1, &[&line]);
        let parts = [
            "standard input, line 2: Mari is no stop of mar.book\n",
            "standard input, line 4: Zoo is no stop of mar.book\n",
            "2 bad lines, so no clip is chosen",
        ];
        route(&["--names"], "Mar\nMari\n\nZoo\nMarina").assert_fails(1, &parts);
        let word = "stopbook: Zoo is no stop of mar.book\n";
        route(&["--names", "Mar", "Zoo", "a"], "").assert_fails(1, &[word]);
        let line = "line 2: one is no position; give numbers, or names with --names\n";
        route(&[], "1\none\n").assert_fails(1, &[line, "1 bad line"]);
        let line = "line 1: a name has at most 200 bytes, and this one 201\n";
        route(&["--names"], &"M".repeat(201)).assert_fails(1, &[line]);
    }
}

#[test]
fn a_route_has_120_stops_at_most() {
    let folder = with_mar();
    let route = ["route", "mar.book", "clips.txt", "--tsv"];
    let ran = folder.run_with(&route, "1\n".repeat(120).as_bytes());
    assert_eq!((ran.status, ran.out().lines().count()), (0, 120));
    for (stop, count) in [("1\n", 121), ("9\n", 1_000)] {
        let ran = folder.run_with(&route, stop.repeat(count).as_bytes());
        ran.assert_fails(1, &["stops, and 120 are the most; part it"]);
    }
    let huge = "1\n".repeat(1 << 20);
    let ran = folder.run_with(&route, huge.as_bytes());
    ran.assert_fails(1, &["more than 1 MiB, too much for a route"]);
}

#[test]
fn random_books_answer_as_the_plain_list_does() {
    let mut numbers = Numbers(9);
    for round in 0..12 {
        let names = numbers.names(1 + 4 * round);
        let folder = Folder::with("names.txt", names.join("\n").as_bytes());
        let ran = folder.run(&["build", "names.txt", "--as-is", "-o", "n.book"]);
        assert_eq!(ran.status, 0, "{}", ran.err);
        let clips: Vec<usize> = names.iter().map(|_| numbers.below(65_536)).collect();
        let text: String = clips.iter().map(|clip| format!("{clip}\n")).collect();
        folder.write("clips.txt", text.as_bytes());
        for _ in 0..8 {
            let typed = numbers.word(3);
            let begin: Vec<usize> = (0..names.len())
                .filter(|&at| names[at].starts_with(&typed))
                .collect();
            let exact = names.iter().position(|name| *name == typed);
            let line = match (exact, &begin[..]) {
                (Some(at), _) | (None, &[at]) => format!("yes\t{}\t-\t{typed}\n", clips[at]),
                (None, several) => format!("no\t-\t{}\t{typed}\n", several.len()),
            };
            let ran = folder.run(&["clip", "n.book", "clips.txt", "--tsv", "--", &typed]);
            assert_eq!(ran.out(), line);
        }
        let route: Vec<usize> = (0..30).map(|_| numbers.below(names.len())).collect();
        let stops: String = route.iter().map(|&at| format!("{}\n", names[at])).collect();
        let lines = route.iter().enumerate();
        let lines =
            lines.map(|(place, &at)| format!("{place}\t{at}\t{}\t{}\n", clips[at], names[at]));
        let words = ["route", "n.book", "clips.txt", "--names", "--tsv"];
        let ran = folder.run_with(&words, stops.as_bytes());
        ran.assert(0, &lines.collect::<String>());
    }
}
