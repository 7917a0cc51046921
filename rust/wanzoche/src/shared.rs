//! A value that several own, whose making may be refused for want of memory, where `Arc::new` would end the program.

use std::marker::PhantomData;
use std::mem::ManuallyDrop;
use std::ops::Deref;
use std::process::abort;
use std::ptr::NonNull;
use std::sync::atomic::{fence, AtomicUsize, Ordering};

use crate::Error;

/// So many owners are more than memory holds, unless they are forgotten in a loop: as `Arc` does, the program then ends.
const MOST_OWNERS: usize = isize::MAX as usize;

struct Inner<T> {
    owners: AtomicUsize,
    /// Of the vector that this is the one element of.
    capacity: usize,
    value: T,
}

/// One owner of a value. It is dropped with its last owner.
pub(crate) struct Shared<T> {
    at: NonNull<Inner<T>>,
    owns: PhantomData<Inner<T>>,
}

// SAFETY: an owner gives out nothing but `&T`, from whatever thread has it, and drops the value in whatever thread is the last.
unsafe impl<T: Send + Sync> Send for Shared<T> {}
// SAFETY: as above. A reference to an owner allows no more than to clone it.
unsafe impl<T: Send + Sync> Sync for Shared<T> {}

impl<T> Shared<T> {
    /// A value with its first owner, or [`Error::OutOfMemory`].
    pub(crate) fn new(value: T) -> Result<Shared<T>, Error> {
        let mut one = Vec::new();
        one.try_reserve_exact(1).map_err(|_| Error::OutOfMemory)?;
        let capacity = one.capacity();
        one.push(Inner { owners: AtomicUsize::new(1), capacity, value });
        let mut one = ManuallyDrop::new(one);
        // SAFETY: the vector has memory for an element, so its address isn't null.
        let at = unsafe { NonNull::new_unchecked(one.as_mut_ptr()) };
        Ok(Shared { at, owns: PhantomData })
    }

    fn inner(&self) -> &Inner<T> {
        // SAFETY: this is an owner, so the value is there, and nobody has it by `&mut`.
        unsafe { self.at.as_ref() }
    }
}

impl<T> Deref for Shared<T> {
    type Target = T;

    fn deref(&self) -> &T {
        &self.inner().value
    }
}

impl<T> Clone for Shared<T> {
    fn clone(&self) -> Shared<T> {
        // Whoever hands the new owner to another thread orders what was before; the count needs no more.
        if self.inner().owners.fetch_add(1, Ordering::Relaxed) > MOST_OWNERS {
            abort();
        }
        Shared { at: self.at, owns: PhantomData }
    }
}

impl<T> Drop for Shared<T> {
    fn drop(&mut self) {
        if self.inner().owners.fetch_sub(1, Ordering::Release) != 1 {
            return;
        }
        // What the other owners did comes before the end.
        fence(Ordering::Acquire);
        let capacity = self.inner().capacity;
        // SAFETY: the address, the one element and the capacity are those of the vector that `new` made, and this was its last owner.
        drop(unsafe { Vec::from_raw_parts(self.at.as_ptr(), 1, capacity) });
    }
}

#[cfg(test)]
mod tests {
    use super::Shared;
    use std::sync::atomic::{AtomicUsize, Ordering::SeqCst};
    use std::thread;

    struct Counts<'a>(&'a AtomicUsize);

    impl Drop for Counts<'_> {
        fn drop(&mut self) {
            self.0.fetch_add(1, SeqCst);
        }
    }

    #[test]
    fn the_last_owner_drops_the_value() {
        let dropped = AtomicUsize::new(0);
        let first = Shared::new(Counts(&dropped)).unwrap_or_else(|_| panic!("there is memory"));
        let second = first.clone();
        drop(first);
        assert_eq!((dropped.load(SeqCst), second.0.load(SeqCst)), (0, 0));
        drop(second);
        assert_eq!(dropped.load(SeqCst), 1);
    }

    #[test]
    fn threads_own_it_together() {
        let dropped = AtomicUsize::new(0);
        let first = Shared::new(Counts(&dropped)).unwrap_or_else(|_| panic!("there is memory"));
        thread::scope(|scope| {
            for _ in 0..8 {
                let own = first.clone();
                scope.spawn(move || (0..1000).for_each(|_| drop(own.clone())));
            }
            drop(first);
        });
        assert_eq!(dropped.load(SeqCst), 1);
    }
}
