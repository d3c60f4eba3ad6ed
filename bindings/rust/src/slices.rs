//! Slices that share no memory, as the library asks of the arrays of one call.

use crate::error::Error;
use std::borrow::Cow;
use std::ops::Range;

/// The addresses of a slice's items.
fn addresses<T>(slice: &[T]) -> Range<usize> {
    let range = slice.as_ptr_range();
    range.start as usize..range.end as usize
}

/// Whether two slices share memory. An empty one shares none.
fn share_memory<T, U>(a: &[T], b: &[U]) -> bool {
    let (a, b) = (addresses(a), addresses(b));
    a.start.max(b.start) < a.end.min(b.end)
}

/// The slice, or a copy of it where it shares memory with the other.
pub(crate) fn apart_from<'a, T: Copy, U>(
    slice: &'a [T],
    other: &[U],
) -> Result<Cow<'a, [T]>, Error> {
    if !share_memory(slice, other) {
        return Ok(Cow::Borrowed(slice));
    }
    let mut copy = Vec::new();
    copy.try_reserve_exact(slice.len())
        .map_err(|_| Error::OutOfMemory)?;
    copy.extend_from_slice(slice);
    Ok(Cow::Owned(copy))
}

#[cfg(test)]
mod tests {
    use super::{apart_from, share_memory};
    use std::borrow::Cow;

    #[test]
    fn slices_share_memory_where_they_have_a_common_item() {
        let items = [1u64, 2, 3, 4];
        assert!(share_memory(&items, &items));
        assert!(share_memory(&items[..3], &items[2..]));
        assert!(share_memory(&items[1..2], &items));
        assert!(!share_memory(&items[..2], &items[2..]));
        assert!(!share_memory(&items[2..2], &items));
        assert!(!share_memory::<u64, u64>(&[], &[]));
    }

    #[test]
    fn a_slice_is_copied_only_where_it_shares_memory() {
        let items = [1u64, 2, 3, 4];
        let copy = apart_from(&items[1..], &items[..2]).unwrap();
        assert!(matches!(copy, Cow::Owned(_)));
        assert_eq!(*copy, [2, 3, 4]);
        let same = apart_from(&items[2..], &items[..2]).unwrap();
        assert!(matches!(same, Cow::Borrowed(_)));
        assert_eq!(*same, [3, 4]);
    }
}
