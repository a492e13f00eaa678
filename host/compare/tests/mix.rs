//! The lists that are merged.

use compare::mix::two_lists;
use compare::stations;
use std::collections::BTreeSet;
use vectors::lists::sorted;

#[test]
fn two_lists_have_a_third_of_all_names_in_common_and_make_up_all() {
    let names = stations();
    let [first, second] = two_lists(&names);
    assert_eq!((first.len(), second.len()), (1200, 1200));
    let own: BTreeSet<&Vec<u8>> = first.iter().collect();
    let shared = second.iter().filter(|name| own.contains(name)).count();
    assert_eq!(shared, 600);
    assert_eq!(sorted([first, second].concat()), names);
}
