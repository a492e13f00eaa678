//! Merging held to the second program, on sound and on damaged lists.

use model::write_list;
use reference::{list_head, list_judge, list_merge, Answer};
use vectors::damage::{spoil_bytes, spoil_names};
use vectors::lists::{self, Names};
use vectors::random::Random;
use vectors::rooms::filled_room;

type Numbers = (usize, usize, usize);

fn ours(answer: Answer) -> Numbers {
    (answer.code, answer.first, answer.second)
}

fn theirs(answer: model::Answer) -> Numbers {
    (answer.code, answer.first, answer.second)
}

/// Makes all three calls with these lists.
fn hold(random: &mut Random, first: &[u8], second: &[u8]) {
    let most = first.len() + second.len();
    let length = model::list_merge(first, second, &mut vec![0; most]).first;
    let shortest = length.saturating_sub(2).min(most);
    for space in [0, most, random.between(shortest, most + 2)] {
        let (mut one, mut other) = (filled_room(space), filled_room(space));
        let merged = list_merge(first, second, &mut one);
        let expected = model::list_merge(first, second, &mut other);
        assert_eq!(ours(merged), theirs(expected), "{first:?} {second:?}");
        assert_eq!(one, other, "the room of a merge");
    }
    let judged = list_judge(first, second);
    assert_eq!(ours(judged), theirs(model::list_judge(first, second)));
    let counts = [0, 1, usize::MAX, random.below(40), random.below(40)];
    for passed_first in counts {
        for passed_second in counts {
            let head = list_head(first, second, passed_first, passed_second);
            let expected = model::list_head(first, second, passed_first, passed_second);
            assert_eq!(
                (head.list, head.start, head.length),
                (expected.list, expected.start, expected.length)
            );
        }
    }
}

/// Two lists of some names, each of which is in the first, the second or both.
fn any_lists(random: &mut Random) -> [Names; 2] {
    let all = lists::all_bytes();
    let names = match random.below(5) {
        0 => lists::random(random, b"ab", 60, 1, 6),
        1 => lists::random(random, &all, 40, 1, 200),
        2 => lists::grown(random, b"abc", 60, 12),
        3 => lists::chain(random.byte(), random.between(1, 60)),
        _ => lists::fan(&random.string(b"ab", 1, 5)),
    };
    let mut both = [Names::new(), Names::new()];
    for name in names {
        let whose = random.below(3);
        for (number, list) in both.iter_mut().enumerate() {
            if whose != number {
                list.push(name.clone());
            }
        }
    }
    both
}

#[test]
fn merges_sound_lists_alike() {
    let mut random = Random::from_seed(1);
    hold(&mut random, &[], &[]);
    for _ in 0..600 {
        let [first, second] = any_lists(&mut random).map(|names| write_list(&names));
        hold(&mut random, &first, &second);
        hold(&mut random, &first, &first);
        hold(&mut random, &[], &second);
    }
}

#[test]
fn refuses_damaged_lists_alike() {
    let mut random = Random::from_seed(2);
    for _ in 0..1500 {
        let mut names = any_lists(&mut random);
        if random.once_in(2) {
            spoil_names(&mut random, &mut names[0]);
        }
        if random.once_in(2) {
            spoil_names(&mut random, &mut names[1]);
        }
        let mut both = names.map(|names| write_list(&names));
        if random.once_in(2) {
            let spoilt = random.below(2);
            spoil_bytes(&mut random, &mut both[spoilt]);
        }
        hold(&mut random, &both[0], &both[1]);
    }
}

#[test]
fn only_the_merged_list_has_a_limit() {
    let mut random = Random::from_seed(3);
    let list = |count| write_list(&lists::pairs(count));
    let mut falling = list(2001);
    falling.extend([1, 0]);
    for (first, second) in [
        (list(2000), list(2000)),
        (list(2000), list(1999)),
        (list(2001), Vec::new()),
        (list(2001), list(2001)),
        (Vec::new(), list(5000)),
        (list(2000), vec![2, 8, 0]),
        (list(1999), vec![2, 7, 249]),
        (falling.clone(), list(3)),
        (list(3), falling),
    ] {
        hold(&mut random, &first, &second);
    }
}
