//! Stand-in for `capability/handle/page.rs`, which the sources lack: one boxed run of slots.
//! It decides nothing that is compared. Refusal for want of memory is the driver's, by frames.

use alloc::boxed::Box;
use alloc::vec::Vec;

use crate::capability::handle::HandleError;

pub(in crate::capability::handle) const PAGE_BYTES: usize = 4096;

pub(in crate::capability::handle) struct Page<T> {
    entries: Box<[T]>,
}

impl<T> Page<T> {
    pub(in crate::capability::handle) fn try_new(
        count: usize,
        make: impl FnMut(usize) -> T,
    ) -> Result<Self, HandleError> {
        let mut entries = Vec::new();
        entries
            .try_reserve_exact(count)
            .map_err(|_| HandleError::Allocation)?;
        entries.extend((0..count).map(make));
        Ok(Self {
            entries: entries.into_boxed_slice(),
        })
    }
    pub(in crate::capability::handle) fn entries(&self) -> &[T] {
        &self.entries
    }
    pub(in crate::capability::handle) fn entries_mut(&mut self) -> &mut [T] {
        &mut self.entries
    }
}
