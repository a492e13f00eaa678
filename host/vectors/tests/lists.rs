//! What the lists promise: sound, and of the shape that their names say.

use model::names::{is_sound_list, leading_equal};
use model::tree::tree;
use model::{book_of, read_list, write_list, BookKind, Rule};
use vectors::damage::{spoil_bytes, spoil_names};
use vectors::folded::on_past_the_end;
use vectors::lists::{self, Names};
use vectors::random::Random;

#[test]
fn the_fixed_lists_are_sound() {
    let shapes: [(&str, Names); 13] = [
        ("example", lists::example()),
        ("stops", lists::stops()),
        ("longest first", lists::longest_of_three(0)),
        ("longest in the middle", lists::longest_of_three(1)),
        ("longest last", lists::longest_of_three(2)),
        ("pairs", lists::pairs(2000)),
        ("single bytes", lists::single_bytes()),
        ("fan", lists::fan(b"x")),
        ("chain", lists::chain(b'a', 200)),
        ("mirror", lists::mirror(b'a', b'b', 200)),
        ("binary", lists::binary(2000)),
        ("long", lists::long(2000)),
        ("alike", lists::alike(2000)),
    ];
    for (shape, names) in shapes.into_iter().chain(lists::lettered()) {
        assert!(is_sound_list(Rule::Plain, &names), "{shape}");
    }
}

#[test]
fn a_first_name_goes_on_as_its_book_does_behind_the_last_count() {
    let names = on_past_the_end();
    assert!(is_sound_list(Rule::Folded, &names));
    let book = book_of(BookKind::Folded, 16, &names);
    let last = &names[2][2..];
    let at = book.len() - 78 - last.len();
    assert_eq!(book[at - 2..at], [2, 2]);
    assert!(book[at..].starts_with(last));
    assert!(names[0][2..].starts_with(&book[at..]));
    assert!(names[0].len() > 2 + book.len() - at);
}

#[test]
fn names_with_letters_of_several_bytes_part_inside_a_letter() {
    for (letters, names) in lists::lettered() {
        let pairs = names.windows(2);
        let inside = pairs.filter(|pair| {
            let shared = leading_equal(&pair[0], &pair[1]);
            matches!(pair[1][shared], 128..=191)
        });
        assert!(inside.count() > 0, "{letters}");
    }
}

#[test]
fn the_random_lists_are_sound_and_the_same_each_time() {
    let all = lists::all_bytes();
    for seed in 0..50 {
        let make = |seed| {
            let random = &mut Random::from_seed(seed);
            let flat = lists::random(random, &all, 40, 1, 200);
            (flat, lists::grown(random, b"ab", 60, 30))
        };
        let (flat, grown) = make(seed);
        assert!(
            is_sound_list(Rule::Plain, &flat) && is_sound_list(Rule::Plain, &grown),
            "seed {seed}"
        );
        assert_eq!(make(seed), (flat, grown));
    }
}

#[test]
fn names_are_shared_out_to_sound_lists_with_and_without_names_in_both() {
    let names = lists::stops();
    let (mut apart, mut together) = (0, 0);
    for seed in 0..100 {
        let [one, other] = lists::shared_out(&mut Random::from_seed(seed), &names);
        assert!(
            is_sound_list(Rule::Plain, &one) && is_sound_list(Rule::Plain, &other),
            "seed {seed}"
        );
        assert!([&one[..], &other]
            .concat()
            .iter()
            .all(|name| names.contains(name)));
        let in_both = one.iter().filter(|name| other.contains(name)).count();
        apart += usize::from(in_both == 0 && one.len() + other.len() == names.len());
        together += usize::from(in_both > 0);
    }
    assert!(apart > 20 && together > 40, "{apart} {together}");
}

#[test]
fn a_fan_has_the_widest_node_and_a_binary_list_the_most_nodes() {
    assert_eq!(
        tree(Rule::Plain, &lists::fan(b"x")).unwrap().children.len(),
        257
    );
    let most = lists::MOST_BINARY;
    assert_eq!(
        tree(Rule::Plain, &lists::binary(most)).unwrap().nodes,
        2 * most - 1
    );
    let book = |count| book_of(BookKind::Plain, 1, &lists::binary(count)).len();
    assert!(book(most) <= 65_535 && book(1680) <= 65_535 && book(1681) > 65_535);
}

#[test]
fn a_wanted_book_length_is_met_and_changes_no_node_but_leaves() {
    for (names, block) in [(lists::stops(), 7), (lists::binary(100), 1)] {
        let before = book_of(BookKind::Plain, block, &names).len();
        for more in [0, 1, 500] {
            let padded = lists::with_book_length(BookKind::Plain, &names, block, before + more);
            assert!(is_sound_list(Rule::Plain, &padded));
            assert_eq!(
                book_of(BookKind::Plain, block, &padded).len(),
                before + more
            );
            assert_eq!(
                tree(Rule::Plain, &padded).unwrap().nodes,
                tree(Rule::Plain, &names).unwrap().nodes
            );
        }
    }
}

#[test]
fn spoiling_leads_to_refusals_5_and_6_and_sometimes_to_none() {
    let mut seen = [0; 13];
    for seed in 0..400 {
        let random = &mut Random::from_seed(seed);
        let mut names = lists::stops();
        if seed % 2 == 0 {
            spoil_names(random, &mut names);
        }
        let mut list = write_list(&names);
        if seed % 2 == 1 {
            spoil_bytes(random, &mut list);
        }
        let code = read_list(Rule::Plain, &list)
            .err()
            .map_or(0, |(code, _)| code);
        seen[code] += 1;
    }
    assert!(seen[0] > 10 && seen[5] > 10 && seen[6] > 10, "{seen:?}");
}
