//! A child module of `storage.rs`: reads and fills the private fields of the slot store. It runs no rule of the table.

use super::super::*;
use alloc::vec::Vec;

const _: () = assert!(SLOTS_PER_PAGE == 64);
const _: () = assert!(MAX_NEW_PAGES == 2);
const _: () = assert!(MAX_PAGES == 262_144);

#[derive(Clone, Copy, Debug, Default)]
pub(in crate::capability::handle) struct EntryView {
    pub attached: bool,
    pub high: u64,
    pub busy: usize,
    pub empty_previous: Option<usize>,
    pub empty_next: Option<usize>,
    pub vacant_next: Option<usize>,
}

/// How many slots a page has.
pub(in crate::capability::handle) fn slots_in(page: usize) -> usize {
    page_slots(page)
}

impl HandleTableStorageSnapshot {
    /// Epoch and number of free slots.
    pub(in crate::capability::handle) fn peek(&self) -> (u64, usize) {
        (self.epoch, self.free_slots)
    }
    /// A snapshot with the given fields.
    pub(in crate::capability::handle) fn build(epoch: u64, free_slots: usize, kept: &[u64], directory_chunk: Option<usize>) -> Self {
        let mut pages = [0; MAX_NEW_PAGES];
        for (page, kept) in pages.iter_mut().zip(kept) {
            *page = *kept as usize;
        }
        Self { epoch, free_slots, pages, count: kept.len(), directory_chunk }
    }
}

impl SlotStore {
    pub(in crate::capability::handle) fn peek_head(&self) -> (usize, Option<usize>, Option<usize>, u64) {
        (self.page_count, self.vacant, self.empty, self.epoch)
    }
    pub(in crate::capability::handle) fn peek_entry(&self, page: usize) -> EntryView {
        match self.directory.get(page) {
            Some(entry) => EntryView {
                attached: entry.page.is_some(),
                high: entry.high_generation,
                busy: entry.busy,
                empty_previous: entry.empty_previous,
                empty_next: entry.empty_next,
                vacant_next: entry.vacant_next,
            },
            None => EntryView::default(),
        }
    }
    pub(in crate::capability::handle) fn peek_slots(&self, page: usize) -> Option<&[Slot]> {
        Some(self.directory.get(page)?.page.as_ref()?.entries())
    }
    /// A store with the given fields. `slots` gives the slots of an attached page.
    pub(in crate::capability::handle) fn build(
        page_count: usize,
        vacant: Option<usize>,
        empty: Option<usize>,
        epoch: u64,
        mut entry_of: impl FnMut(usize) -> (EntryView, Vec<Slot>),
    ) -> Self {
        let mut store = Self::new();
        for page in 0..page_count {
            let (chunk, _) = chunk_location(page);
            if store.chunks_missing(page) {
                let plan = match DirectoryPlan::prepare(Some(chunk)) {
                    Ok(plan) => plan,
                    Err(_) => super::super::super::super::invariant_violation(),
                };
                store.directory.install(plan);
            }
            let (view, slots) = entry_of(page);
            let entry = store.entry_mut(page);
            entry.high_generation = view.high;
            entry.busy = view.busy;
            entry.empty_previous = view.empty_previous;
            entry.empty_next = view.empty_next;
            entry.vacant_next = view.vacant_next;
            if view.attached {
                let mut slots = slots.into_iter();
                entry.page = Page::try_new(page_slots(page), |_| slots.next().unwrap_or(Slot::Empty)).ok();
            }
        }
        store.page_count = page_count;
        store.vacant = vacant;
        store.empty = empty;
        store.epoch = epoch;
        store
    }
    fn chunks_missing(&self, page: usize) -> bool {
        self.directory.get(page).is_none()
    }
    /// Ends a store without running any rule: `discard` gets every slot.
    pub(in crate::capability::handle) fn wipe(&mut self, mut discard: impl FnMut(Slot)) {
        for page in 0..self.page_count {
            if let Some(entry) = self.directory.get_mut(page)
                && let Some(page) = entry.page.as_mut()
            {
                for slot in page.entries_mut() {
                    discard(core::mem::replace(slot, Slot::Empty));
                }
            }
        }
        self.page_count = 0;
    }
}
