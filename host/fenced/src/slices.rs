//! Slices that end, or begin, at a fence.

use crate::field::Field;
use std::fmt;
use std::marker::PhantomData;
use std::ops::{Deref, DerefMut};
use std::slice;

/// On which side of a slice its fence stands. On the other side there is one,
/// too, but further away.
#[derive(Clone, Copy, Debug, PartialEq, Eq)]
pub enum Fence {
    /// Right before the first item.
    Before,
    /// Right behind the last item.
    Behind,
}

/// A slice with a fence on one side.
///
/// One without items has an address at the fence: right behind it, or that of
/// the fence itself.
pub struct Fenced<T> {
    field: Field,
    fence: Fence,
    length: usize,
    items: PhantomData<T>,
}

// SAFETY: nobody else has the memory, as with a box.
unsafe impl<T: Send> Send for Fenced<T> {}
// SAFETY: as above.
unsafe impl<T: Sync> Sync for Fenced<T> {}

impl<T: Copy> Fenced<T> {
    /// A copy of these items with a fence on this side.
    pub fn of(items: &[T], fence: Fence) -> Fenced<T> {
        let fenced = Fenced {
            field: Field::with_space(size_of_val(items)),
            fence,
            length: items.len(),
            items: PhantomData,
        };
        let start: *mut T = fenced.start();
        // Both ends of a field are those of pages, and the size of an item is a
        // multiple of its alignment.
        assert!(start.is_aligned());
        // SAFETY: the field has space for all items, and nobody else has it.
        unsafe { start.copy_from_nonoverlapping(items.as_ptr(), items.len()) };
        fenced
    }
}

impl<T> Fenced<T> {
    /// Where the fence stands.
    pub fn fence(&self) -> Fence {
        self.fence
    }

    /// Where the first item stands, or would.
    fn start(&self) -> *mut T {
        match self.fence {
            Fence::Before => self.field.start().cast(),
            Fence::Behind => self.field.end().cast::<T>().wrapping_sub(self.length),
        }
    }
}

impl<T> Deref for Fenced<T> {
    type Target = [T];

    fn deref(&self) -> &[T] {
        // SAFETY: so many items were copied there, and nobody else has them.
        unsafe { slice::from_raw_parts(self.start(), self.length) }
    }
}

impl<T> DerefMut for Fenced<T> {
    fn deref_mut(&mut self) -> &mut [T] {
        // SAFETY: as in `deref`.
        unsafe { slice::from_raw_parts_mut(self.start(), self.length) }
    }
}

impl<T: Copy> Clone for Fenced<T> {
    fn clone(&self) -> Fenced<T> {
        Fenced::of(self, self.fence)
    }
}

impl<T: PartialEq> PartialEq for Fenced<T> {
    fn eq(&self, other: &Fenced<T>) -> bool {
        **self == **other
    }
}

impl<T: fmt::Debug> fmt::Debug for Fenced<T> {
    fn fmt(&self, text: &mut fmt::Formatter) -> fmt::Result {
        (**self).fmt(text)
    }
}
