//! The page and the drawing show what was measured.

use compare::plot::drawing;
use compare::steps::{
    middle, middle_ratio, Figures, Middle, Step, Subject, LIBRARY, MODEL, REFERENCE, ROWS, SORTED,
};
use compare::tables::{page, About};
use format::Kind;

/// Four subjects, with figures that are easily told apart.
fn made_up() -> (Vec<Subject>, Figures) {
    let names = ["Mistrogu", "reference", "second program", "sorted array"];
    let subjects = names.map(|name| Subject {
        name: name.to_string(),
        size: 1000,
    });
    let mut figures = Figures::default();
    let mut note = |subject, step, counts: &[u64], time: f64| {
        figures
            .instructions
            .insert((subject, step), counts.to_vec());
        figures
            .times
            .insert((subject, step), vec![time, 2.0 * time]);
        figures.stacks.insert((subject, step), 64);
    };
    note(LIBRARY, Step::Nothing, &[10], 1.0);
    note(LIBRARY, Step::Check, &[100_010], 6400.0);
    note(LIBRARY, Step::Batch, &[164_010], 7040.0);
    note(REFERENCE, Step::Check, &[90_010], 3200.0);
    note(LIBRARY, Step::CheckFolded, &[120_010], 6600.0);
    note(LIBRARY, Step::Merge, &[300_010], 5000.0);
    note(REFERENCE, Step::Merge, &[200_010], 4000.0);
    note(LIBRARY, Step::Salvage, &[150_010], 9600.0);
    note(REFERENCE, Step::Salvage, &[75_010], 4800.0);
    for kind in Kind::ALL {
        note(LIBRARY, Step::Ask(kind), &[100_410, 100_810], 6401.0);
        note(LIBRARY, Step::BatchOf(kind), &[164_010], 6400.0);
        note(REFERENCE, Step::Ask(kind), &[90_210, 90_310], 3201.0);
        note(REFERENCE, Step::BatchOf(kind), &[102_010], 3200.0);
        note(MODEL, Step::Ask(kind), &[5_000_010], 64_010.0);
        note(MODEL, Step::HeldAsk(kind), &[7_010], 50.0);
        note(SORTED, Step::Ask(kind), &[710], 21.0);
        note(SORTED, Step::HeldAsk(kind), &[1], 20.0);
    }
    figures.sort = 400_000;
    (subjects.to_vec(), figures)
}

#[test]
fn after_the_check_the_librarys_check_is_taken_off() {
    let (_, figures) = made_up();
    let step = Step::Ask(Kind::Exact);
    let held = |subject| {
        figures
            .held(subject, step)
            .map(|spread| (spread.mean, spread.most))
    };
    assert_eq!(held(LIBRARY), Some((600.0, 800.0)));
    assert_eq!(held(REFERENCE), Some((250.0, 300.0)));
    assert_eq!(held(MODEL), Some((7000.0, 7000.0)));
    assert_eq!(held(SORTED), Some((700.0, 700.0)));
    assert_eq!(figures.held_times(LIBRARY, step), Some(vec![100.0, 200.0]));
    assert_eq!(figures.held_times(REFERENCE, step), Some(vec![50.0, 100.0]));
    assert_eq!(figures.held_times(SORTED, step), Some(vec![20.0, 40.0]));
    assert_eq!(figures.held_times(LIBRARY, Step::Read), None);
    assert_eq!(ROWS, 64);
}

#[test]
fn a_ratio_is_the_middle_of_the_rounds_and_its_spread_leaves_a_tenth_out_at_both_ends() {
    let one = middle_ratio(&[1.0, 9.0, 6.0], &[2.0, 3.0, 3.0]);
    let expected = Middle {
        median: 2.0,
        least: 0.5,
        most: 3.0,
    };
    assert_eq!(one, expected);
    let twenty = middle((1..=20).rev().map(f64::from).collect());
    let expected = Middle {
        median: 11.0,
        least: 3.0,
        most: 18.0,
    };
    assert_eq!(twenty, expected);
}

#[test]
fn the_page_has_a_row_for_each_call_and_says_what_is_left_out() {
    let (subjects, figures) = made_up();
    let about = About {
        names: 1800,
        list: 37_257,
        nodes: 2451,
        questions: 100,
        merged: [1200, 1150],
        folded: [1790, 63_000],
        rounds: 2,
        left_out: vec!["fst is left out.".to_string()],
    };
    let page = page(&about, &subjects, &figures);
    for line in [
        "| exact | 100,600 | 90,250 (0.90) | 5,000,000 (50) | 700 (1/140) |",
        "| exact | 600 / 800 | 250 / 300 (0.42) | 7,000 / 7,000 (12) | 700 / 700 (1.17) |",
        "| exact, after the check | 1/64 | 0.50 | 0.50 | 0.20 |",
        "| row of a batch, with its 64th of the check | 2,562 | - | - | - |",
        "| row of a batch, without | 1,000 | - | - | - |",
        "| build | - | - | - | - |",
        "| check | 64 | 64 | - | - |",
        "| salvage | 150,000 | 75,000 (0.50) | - | - |",
        "| salvage | 1.50 | 0.50 | - | - |",
        "| salvage | 64 | 64 | - | - |",
        "| Mistrogu | 300,000 | 1.00 | 64 |",
        "| reference | 200,000 (0.67) | 0.80 | 64 |",
        "| `sort -mu` of the lines | 400,000 (1.33) | - | - |",
        "| check, plain | 100,000 | 90,000 (0.90) | - | - |",
        "| check, folded | 120,000 | - | - | - |",
        "fst is left out.",
    ] {
        assert!(page.lines().any(|other| other == line), "{line}\n{page}");
    }
    let lists = "Lists of 1,200 and 1,150 names, 550 of them in both,";
    assert!(page.contains(lists), "{page}");
    assert!(!page.contains("| sorted array | 0"), "it merges nothing");
}

#[test]
fn the_drawing_has_a_mark_for_each_figure() {
    let (subjects, figures) = made_up();
    let drawing = drawing(&subjects, &figures);
    // A mark in the legend; then check, batch, its row, salvage and five kinds twice.
    assert_eq!(drawing.matches("<circle").count(), 1 + 4 + 10);
    assert!(drawing.contains("100,600") && drawing.contains("prefers-color-scheme: dark"));
    assert!(!drawing.contains("NaN") && !drawing.contains("inf"));
    assert!(drawing.ends_with("</svg>\n"));
}
