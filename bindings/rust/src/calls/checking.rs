//! What is known of the files around a manifest that is checked, as the library takes it.

use super::folders::{with_folders, Folder, Slice};
use crate::check::{Check, Member, PathPackage, Root};

/// `struct manifest_member` of `bindings/c/cargo_manifest.h`.
#[repr(C)]
pub(crate) struct GivenMember {
    pub(crate) path: Slice<u8>,
    pub(crate) bytes: Slice<u8>,
    pub(crate) patterns: Slice<usize>,
    pub(crate) has_manifest: u8,
}

/// `struct manifest_package`.
#[repr(C)]
pub(crate) struct GivenPackage {
    pub(crate) path: Slice<u8>,
    pub(crate) name: Slice<u8>,
    pub(crate) has_name: u8,
}

/// `struct manifest_check_request`.
#[repr(C)]
#[derive(Clone, Copy)]
pub(crate) struct CheckRequest {
    pub(crate) bytes: Slice<u8>,
    pub(crate) root: Slice<u8>,
    pub(crate) config: Slice<u8>,
    pub(crate) folders: Slice<Folder>,
    pub(crate) members: Slice<GivenMember>,
    pub(crate) packages: Slice<GivenPackage>,
    pub(crate) most: usize,
    pub(crate) has_root: u8,
    pub(crate) is_listed: u8,
    pub(crate) has_config: u8,
    pub(crate) has_folders: u8,
    pub(crate) has_members: u8,
    pub(crate) has_packages: u8,
    pub(crate) publishes: u8,
}

/// What is known of something: `enum manifest_known`.
fn number_of(known: Option<bool>) -> u8 {
    match known {
        None => 0,
        Some(true) => 1,
        Some(false) => 2,
    }
}

fn member_of(member: &Member<'_>) -> GivenMember {
    GivenMember {
        path: Slice::of(member.path.as_bytes()),
        bytes: Slice::of(member.manifest.unwrap_or_default()),
        patterns: Slice::of(member.patterns),
        has_manifest: member.manifest.is_some().into(),
    }
}

fn package_of(package: &PathPackage<'_>) -> GivenPackage {
    GivenPackage {
        path: Slice::of(package.path.as_bytes()),
        name: Slice::of(package.name.unwrap_or_default().as_bytes()),
        has_name: package.name.is_some().into(),
    }
}

/// Runs with the request of a check. What it points to lives as long as the run.
pub(crate) fn with_check<T>(check: &Check<'_>, run: impl FnOnce(CheckRequest) -> T) -> T {
    let members: Vec<GivenMember> = check.members.unwrap_or_default().iter().map(member_of).collect();
    let packages: Vec<GivenPackage> = check.packages.unwrap_or_default().iter().map(package_of).collect();
    let (root, has_root) = match check.root {
        Root::Unknown => (None, None),
        Root::Is(root) => (Some(root), Some(true)),
        Root::Missing => (None, Some(false)),
    };
    let request = CheckRequest {
        bytes: Slice::of(check.bytes),
        root: Slice::of(root.unwrap_or_default()),
        config: Slice::of(check.config.unwrap_or_default()),
        folders: Slice::of(&[]),
        members: Slice::of(&members),
        packages: Slice::of(&packages),
        most: check.most,
        has_root: number_of(has_root),
        is_listed: number_of(check.is_listed),
        has_config: check.config.is_some().into(),
        has_folders: check.folders.is_some().into(),
        has_members: check.members.is_some().into(),
        has_packages: check.packages.is_some().into(),
        publishes: check.publishes.into(),
    };
    match check.folders {
        None => run(request),
        Some(listings) => {
            with_folders(listings, |folders| run(CheckRequest { folders: Slice::of(folders), ..request }))
        }
    }
}
