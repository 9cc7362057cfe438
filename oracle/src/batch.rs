//! The batch (01's bundle): a one-byte count, then each entry after its one-byte length.

use crate::section;

/// The entries of a batch that ends exactly after its last one; otherwise none.
pub fn entries(batch: &[u8]) -> Option<Vec<&[u8]>> {
    let (&count, mut rest) = batch.split_first()?;
    let mut entries = Vec::with_capacity(count.into());
    for _ in 0..count {
        let (entry, after) = section(rest)?;
        entries.push(entry);
        rest = after;
    }
    rest.is_empty().then_some(entries)
}

/// The batch of at most 255 entries of at most 255 bytes.
pub fn encode<T: AsRef<[u8]>>(entries: &[T]) -> Vec<u8> {
    let mut batch = vec![u8::try_from(entries.len()).expect("at most 255 entries")];
    for entry in entries.iter().map(T::as_ref) {
        batch.push(u8::try_from(entry.len()).expect("at most 255 bytes"));
        batch.extend_from_slice(entry);
    }
    batch
}
