//! Listings, as the library takes them.

use super::listings::Listings;
use super::numbers;
use super::refusal::ListingError;

/// A slice that is borrowed: `struct manifest_bytes`, `manifest_names` and `manifest_folders` of `bindings/c/cargo_manifest.h`.
#[repr(C)]
pub(crate) struct Slice<T> {
    pub(crate) at: *const T,
    pub(crate) length: usize,
}

impl<T> Slice<T> {
    pub(crate) fn of(items: &[T]) -> Slice<T> {
        Slice { at: items.as_ptr(), length: items.len() }
    }
}

impl<T> Clone for Slice<T> {
    fn clone(&self) -> Slice<T> {
        *self
    }
}

impl<T> Copy for Slice<T> {}

/// `struct manifest_folder`.
#[repr(C)]
pub(crate) struct Folder {
    pub(crate) path: Slice<u8>,
    pub(crate) names: Slice<Slice<u8>>,
    pub(crate) fault: u8,
}

fn number_of(error: ListingError) -> u8 {
    match error {
        ListingError::NotFound => numbers::NOT_FOUND,
        ListingError::OutOfMemory => numbers::OUT_OF_MEMORY,
        ListingError::Other => numbers::OTHER_FAULT,
    }
}

/// Runs with the listings as folders. What they point to lives as long as the run.
pub(crate) fn with_folders<T>(listings: &Listings, run: impl FnOnce(&[Folder]) -> T) -> T {
    let mut names = Vec::with_capacity(listings.len());
    names.extend(listings.entries().flat_map(|(_, listed)| listed).flatten().map(|name| Slice::of(name.as_bytes())));
    let mut left = names.as_slice();
    let folders: Vec<Folder> = listings
        .entries()
        .map(|(path, listed)| {
            let (count, fault) = listed.as_ref().map_or_else(|fault| (0, number_of(*fault)), |names| (names.len(), 0));
            let (own, others) = left.split_at(count);
            left = others;
            Folder { path: Slice::of(path.as_bytes()), names: Slice::of(own), fault }
        })
        .collect();
    run(&folders)
}
