//! Memory that may be refused: each request is answered, where Rust's collections would end the program.

use crate::Error;

/// So many values, or [`Error::OutOfMemory`].
pub(crate) fn row<T>(length: usize, value: impl Fn() -> T) -> Result<Box<[T]>, Error> {
    let mut values = Vec::new();
    values.try_reserve_exact(length).map_err(|_| Error::OutOfMemory)?;
    values.resize_with(length, value);
    Ok(values.into_boxed_slice())
}

/// Makes space for so many more values.
pub(crate) fn space<T>(values: &mut Vec<T>, more: usize) -> Result<(), Error> {
    values.try_reserve(more).map_err(|_| Error::OutOfMemory)
}

/// A copy of a text, or [`Error::OutOfMemory`].
pub(crate) fn own(text: &str) -> Result<String, Error> {
    let mut copy = String::new();
    copy.try_reserve_exact(text.len()).map_err(|_| Error::OutOfMemory)?;
    copy.push_str(text);
    Ok(copy)
}
