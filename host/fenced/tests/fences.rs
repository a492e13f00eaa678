//! Fences stop whoever touches them, and nobody else.

use fenced::apart::{run_test, word};
use fenced::{on_stack, Fence, Fenced};
use std::hint::black_box;
use std::os::unix::process::ExitStatusExt;

/// Three numbers, as a row of a batch is.
type Row = [u64; 3];

/// Something to be done in a process of its own, and its name.
type Deed = (&'static str, fn());

/// What a fence stops.
const STOPPED: [Deed; 10] = [
    ("read behind", || read(&bytes(100, Fence::Behind), 100)),
    ("read before", || read(&bytes(100, Fence::Before), -1)),
    ("read behind nothing", || {
        read(&bytes(0, Fence::Behind), 0);
    }),
    ("read before nothing", || {
        read(&bytes(0, Fence::Before), -1);
    }),
    ("read behind whole pages", || {
        read(&bytes(65_536, Fence::Behind), 65_536);
    }),
    ("write behind", || write(bytes(100, Fence::Behind), 100)),
    ("write before", || write(bytes(100, Fence::Before), -1)),
    ("leap behind", || read(&bytes(100, Fence::Behind), 900_000)),
    ("read a row behind", || read(&rows(7, Fence::Behind), 7)),
    ("read a row before", || read(&rows(7, Fence::Before), -1)),
];

/// What takes more stack than it may. The first number is no multiple of a page.
#[cfg(target_arch = "x86_64")]
const TOO_DEEP: [Deed; 3] = [
    ("as much as there is", || take_on_stack::<5_632>(5_632)),
    ("a page more than there is", || {
        take_on_stack::<45_056>(40_960)
    }),
    ("much more than there is", || {
        take_on_stack::<500_000>(40_960)
    }),
];

/// So many bytes.
fn bytes(length: usize, fence: Fence) -> Fenced<u8> {
    Fenced::of(&vec![7; length], fence)
}

/// So many rows.
fn rows(length: usize, fence: Fence) -> Fenced<Row> {
    Fenced::of(&vec![[1, 2, 3]; length], fence)
}

/// Reads the item at this place, inside or not.
fn read<T: Copy>(items: &[T], at: isize) {
    // SAFETY: none, where it is not inside; this process is for trying it.
    black_box(unsafe { items.as_ptr().wrapping_offset(at).read_volatile() });
}

/// Writes a byte at this place, inside or not.
fn write(mut items: Fenced<u8>, at: isize) {
    // SAFETY: as in `read`.
    unsafe { items.as_mut_ptr().wrapping_offset(at).write_volatile(1) };
}

/// Writes all of an array of so many bytes on a stack of so many others.
fn take_on_stack<const TAKEN: usize>(stack: usize) {
    let taken = on_stack(stack, || {
        let mut array = [1u8; TAKEN];
        black_box(&mut array);
        array.len()
    });
    assert_eq!(taken, TAKEN);
}

/// The signal for memory that may not be touched; some systems have two.
const NOT_ALLOWED: [i32; 2] = [10, 11];

/// Does one of these, where this is the process for it; else asserts of each,
/// done by the test of this name in a process of its own, that it is stopped.
fn assert_stopped(test: &str, deeds: &[Deed]) {
    if let Some(word) = word() {
        let (_, act) = deeds.iter().find(|(name, _)| *name == word).unwrap();
        return act();
    }
    for (name, _) in deeds {
        let status = run_test(test, name).status;
        let signal = status.signal();
        let stopped = signal.is_some_and(|signal| NOT_ALLOWED.contains(&signal));
        assert!(stopped, "{name}: {status}");
    }
}

#[test]
fn whoever_steps_past_a_slice_is_stopped() {
    assert_stopped("whoever_steps_past_a_slice_is_stopped", &STOPPED);
}

#[test]
fn whoever_stays_inside_is_not() {
    for fence in [Fence::Before, Fence::Behind] {
        for at in [0, 99] {
            read(&bytes(100, fence), at);
            write(bytes(100, fence), at);
        }
        read(&bytes(65_536, fence), 65_535);
        read(&rows(7, fence), 6);
    }
}

#[test]
#[cfg(target_arch = "x86_64")]
fn whoever_takes_more_stack_than_there_is_is_stopped() {
    let test = "whoever_takes_more_stack_than_there_is_is_stopped";
    assert_stopped(test, &TOO_DEEP);
}

#[test]
fn less_stack_than_there_is_may_be_taken() {
    take_on_stack::<5_400>(5_632);
    take_on_stack::<40_700>(40_960);
    // from the same memory as before
    take_on_stack::<5_400>(5_632);
}

#[test]
fn a_call_takes_and_gives_what_it_likes() {
    let names = vec!["Mar".to_string(), "Marina".to_string()];
    let mut seen = 0;
    let longest = on_stack(20_000, || {
        seen += names.len();
        names.into_iter().max_by_key(String::len)
    });
    assert_eq!((longest.as_deref(), seen), (Some("Marina"), 2));
    let deeper = on_stack(9_000, || on_stack(9_000, || 1) + on_stack(9_000, || 2));
    assert_eq!(deeper, 3);
}

#[test]
fn a_slice_holds_its_items_and_stays_beside_others() {
    for fence in [Fence::Before, Fence::Behind] {
        let lengths = [0, 1, 2, 7, 170, 171, 4095, 4096, 4097, 65_535, 70_000];
        let mut slices: Vec<Fenced<u8>> = lengths.map(|length| bytes(length, fence)).into();
        for (number, slice) in slices.iter_mut().enumerate() {
            slice.fill(number as u8);
        }
        for (number, (slice, length)) in slices.iter().zip(lengths).enumerate() {
            assert_eq!(**slice, vec![number as u8; length]);
            assert_eq!(slice.clone(), *slice);
            assert_eq!(slice.fence(), fence);
        }
    }
}

#[test]
fn rows_are_aligned_and_flush_on_either_side() {
    for length in [0, 1, 64, 65, 170, 171, 3000] {
        for fence in [Fence::Before, Fence::Behind] {
            let rows = rows(length, fence);
            assert_eq!(*rows, vec![[1, 2, 3]; length]);
            let span = rows.as_ptr_range();
            assert!(span.start.is_aligned());
            let flush = match fence {
                Fence::Before => span.start,
                Fence::Behind => span.end,
            };
            assert_eq!(flush as usize % 4096, 0);
        }
    }
}
