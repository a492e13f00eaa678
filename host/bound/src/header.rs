//! What `mistrogu.h` says of the stack, held to the bounds.

use crate::page::grouped;

/// The calls that have a number of their own.
const BUILDS: [&str; 2] = ["book_build", "book_build_folded"];

/// Their number, and that of all other calls.
const NUMBERS: [&str; 2] = ["MISTROGU_BUILD_STACK", "MISTROGU_STACK"];

/// A number may be above the largest bound of its calls by one part in so many
/// of itself. That leaves some room for the guest's own functions and for another
/// compiler, and keeps the header close to the truth.
const PART: u64 = 16;

/// A call, and the most stack that it can take.
pub type Bound<'a> = (&'a str, u64);

/// An error where the header says less than a call can take, or much more, or
/// has other calls.
pub fn hold(header: &str, bounds: &[Bound]) -> Result<(), String> {
    let mut declared = declared(header);
    let mut exported: Vec<&str> = bounds.iter().map(|bound| bound.0).collect();
    declared.sort_unstable();
    exported.sort_unstable();
    if declared != exported {
        return Err(format!(
            "the header has {declared:?}, and the archive {exported:?}"
        ));
    }
    for name in NUMBERS {
        let its_calls = bounds
            .iter()
            .filter(|bound| BUILDS.contains(&bound.0) == (name == NUMBERS[0]));
        hold_number(name, number(header, name)?, its_calls.copied())?;
    }
    Ok(())
}

/// An error where the number is less than one of its calls can take, or much
/// more than all of them.
fn hold_number<'a>(
    name: &str,
    number: u64,
    calls: impl Iterator<Item = Bound<'a>>,
) -> Result<(), String> {
    let most = calls.max_by_key(|bound| bound.1);
    let (call, bytes) = most.ok_or_else(|| format!("no call goes by {name}"))?;
    let (said, taken) = (grouped(number), grouped(bytes));
    if number < bytes {
        return Err(format!(
            "{call} can take {taken} bytes of stack, and {name} is {said}"
        ));
    }
    if number - bytes > number / PART {
        return Err(format!(
            "{name} is {said}, and no call that goes by it takes more than {taken} bytes \
             ({call}): it should be closer"
        ));
    }
    Ok(())
}

/// The number of a constant.
fn number(header: &str, name: &str) -> Result<u64, String> {
    let mut lines = header.lines().map(str::split_whitespace);
    let value = lines.find_map(|mut words| {
        let is_it = words.next() == Some("#define") && words.next() == Some(name);
        is_it.then(|| words.next())?
    });
    let value = value.ok_or_else(|| format!("the header has no {name}"))?;
    value.parse().map_err(|error| format!("{name}: {error}"))
}

/// The calls that the header declares: each gives one of its structs, and has its
/// name in a macro, which may put a prefix before it.
fn declared(header: &str) -> Vec<&str> {
    let lines = header.lines();
    let structs = lines.filter_map(|line| line.strip_prefix("struct mistrogu_"));
    structs
        .filter_map(|rest| Some(rest.split_once(" MISTROGU_CALL(")?.1.split_once(')')?.0))
        .collect()
}

#[cfg(test)]
mod tests {
    use super::*;

    const HEADER: &str = "/* Bytes. */
#define MISTROGU_BUILD_STACK 1600
#define MISTROGU_STACK 3200
struct mistrogu_answer {
struct mistrogu_answer MISTROGU_CALL(book_build)(
    const uint8_t *list, size_t list_length,
struct mistrogu_answer MISTROGU_CALL(book_build_folded)(
struct mistrogu_answer MISTROGU_CALL(book_check)(
struct mistrogu_head MISTROGU_CALL(list_head)(
    const uint8_t *first, size_t first_length,
";

    /// What is said of bounds of the calls, of which both builds have one.
    fn held(build: u64, check: u64, head: u64) -> Result<(), String> {
        let bounds = [
            ("book_check", check),
            ("book_build", build - 1),
            ("book_build_folded", build),
            ("list_head", head),
        ];
        hold(HEADER, &bounds)
    }

    #[test]
    fn numbers_that_are_enough_and_close_are_held() {
        assert_eq!(held(1600, 3200, 8), Ok(()));
        assert_eq!(held(1500, 3000, 3000), Ok(()));
    }

    #[test]
    fn a_call_that_can_take_more_is_named() {
        let error = held(1601, 3200, 8).unwrap_err();
        let sentence =
            "book_build_folded can take 1,601 bytes of stack, and MISTROGU_BUILD_STACK is 1,600";
        assert_eq!(error, sentence);
        let error = held(1600, 8, 3208).unwrap_err();
        let sentence = "list_head can take 3,208 bytes of stack, and MISTROGU_STACK is 3,200";
        assert_eq!(error, sentence);
    }

    #[test]
    fn a_number_that_is_far_above_is_refused() {
        assert!(held(1499, 3200, 8).unwrap_err().contains("closer"));
        assert!(held(1600, 2999, 8).unwrap_err().contains("closer"));
    }

    #[test]
    fn the_header_has_to_have_the_calls_and_the_numbers() {
        let bounds = [
            ("book_build", 1600),
            ("book_build_folded", 1600),
            ("book_check", 3200),
        ];
        assert!(hold(HEADER, &bounds).unwrap_err().contains("list_head"));
        let without = HEADER.replace("#define MISTROGU_STACK", "#define MISTROGU_HEAP");
        let bounds = [bounds[0], bounds[1], bounds[2], ("list_head", 8)];
        let error = hold(&without, &bounds).unwrap_err();
        assert_eq!(error, "the header has no MISTROGU_STACK");
    }
}
