//! How deep the stack of a call grows.
//!
//! A large part of the stack is painted with a pattern, the call is made, and
//! then the lowest word that no longer holds its pattern shows how far the call
//! got. Space that a call sets aside and never writes is not seen below that
//! word.

use std::hint::black_box;
use std::mem::MaybeUninit;
use std::thread;

/// A word of the stack.
type Word = u64;
/// How many words are painted: 4 MiB.
const PAINTED: usize = 512 * 1024;
/// The stack of the thread that measures: 16 MiB.
const STACK: usize = 16 * 1024 * 1024;

/// Makes the call twice on a stack of its own, the second time on paint, and
/// gives its answer and the bytes of stack that it took. These include the
/// frame from which it is called, which is small.
pub fn deepest<T: Send>(mut call: impl FnMut() -> T + Send) -> Result<(T, usize), String> {
    let measure = || {
        // What is only done once, such as finding a function of the system,
        // is done here.
        call();
        on_paint(&mut call)
    };
    let (answer, depth) = thread::scope(|scope| {
        let thread = thread::Builder::new().stack_size(STACK);
        let thread = thread.spawn_scoped(scope, measure);
        thread.map(|thread| thread.join().expect("the measured call ends"))
    })
    .map_err(|error| format!("no thread to measure on: {error}"))?;
    let depth = depth.ok_or("the call went past all that was painted")?;
    Ok((answer, depth))
}

/// Paints, makes the call, looks. No depth where even the last word changed.
#[inline(never)]
fn on_paint<T>(call: &mut impl FnMut() -> T) -> (T, Option<usize>) {
    let mark: Word = 0;
    let top = black_box(&raw const mark) as usize;
    let lowest = paint();
    let answer = call();
    (answer, changed_from(lowest).map(|changed| top - changed))
}

/// The pattern of the word at this number. Neighbours differ in all bytes, and
/// no word is one that a program is likely to write.
fn pattern(number: usize) -> Word {
    (number as Word + 1).wrapping_mul(0x9E37_79B9_7F4A_7C15)
}

/// Paints the stack right below the caller, and gives the lowest address.
#[inline(never)]
fn paint() -> *const Word {
    let mut area = MaybeUninit::<[Word; PAINTED]>::uninit();
    let lowest = area.as_mut_ptr().cast::<Word>();
    for number in 0..PAINTED {
        // SAFETY: the address lies in `area`.
        unsafe { lowest.add(number).write_volatile(pattern(number)) };
    }
    black_box(&mut area);
    lowest
}

/// The address of the lowest word that no longer holds its pattern. It goes up
/// from the lowest one and ends at the first that changed, so it never looks at
/// the part of the stack that it uses itself.
#[inline(never)]
fn changed_from(lowest: *const Word) -> Option<usize> {
    for number in 0..PAINTED {
        // SAFETY: this is memory of this thread's stack, below all that is in
        // use, that was written before. The compiler does not know of it any
        // more, so it is read as it is found.
        let word = unsafe { lowest.add(number).read_volatile() };
        if word != pattern(number) {
            return (number > 0).then(|| lowest as usize + number * size_of::<Word>());
        }
    }
    None
}

#[cfg(test)]
mod tests {
    use super::deepest;
    use std::hint::black_box;

    /// Writes all of an array of so many bytes on its stack.
    #[inline(never)]
    fn write_array<const BYTES: usize>() -> u8 {
        let mut array = [1; BYTES];
        black_box(&mut array);
        array[BYTES / 2]
    }

    #[test]
    fn an_array_on_the_stack_is_seen() {
        let (answer, depth) = deepest(write_array::<100_000>).unwrap();
        assert_eq!(answer, 1);
        assert!((100_000..100_400).contains(&depth), "{depth}");
    }

    #[test]
    fn more_than_was_painted_is_told() {
        assert!(deepest(write_array::<5_000_000>).is_err());
    }
}
