//! Key paths, which share their steps.

use crate::codec::{path_text, Step};
use std::cmp::Ordering;
use std::fmt;
use std::hash::{Hash, Hasher};
use std::sync::Arc;

/// The steps from the whole table of a document to a value in it, or to where one is missing.
///
/// What stands below one key or index shares the steps to it: all that is found in a document takes memory in proportion to
/// the document, and a copy of a path takes none. A path is written as `package.authors[0]`, or as
/// `target."cfg(unix)".dependencies.b`.
///
/// ```
/// use cargo_manifest::{faults, KeyPath, Step};
///
/// let path = &faults(b"[package]\nname = 'a'\nauthors = [true]")?[0].path;
/// assert_eq!(path.to_string(), "package.authors[0]");
/// assert_eq!(path.steps(), [&Step::Key("package".into()), &Step::Key("authors".into()), &Step::Index(0)]);
/// assert_eq!(*path, path.steps().into_iter().cloned().collect::<KeyPath>());
/// # Ok::<(), cargo_manifest::Error>(())
/// ```
#[derive(Clone, Default)]
pub struct KeyPath {
    /// The last step; the path of the whole table has none.
    last: Option<Arc<Link>>,
}

/// A step, and the path before it.
struct Link {
    outer: KeyPath,
    step: Step,
}

impl KeyPath {
    /// The steps, the outermost first; the whole table has none.
    pub fn steps(&self) -> Vec<&Step> {
        self.links().into_iter().map(|link| &link.step).collect()
    }

    /// The path without its last step, and that step.
    ///
    /// ```
    /// use cargo_manifest::{unused_keys, Step};
    ///
    /// let keys = unused_keys(b"[package]\nname = 'a'\nedtion = '2021'")?;
    /// let (table, key) = keys[0].path.split_last().expect("a key");
    /// assert_eq!((table.to_string().as_str(), key), ("package", &Step::Key("edtion".into())));
    /// # Ok::<(), cargo_manifest::Error>(())
    /// ```
    pub fn split_last(&self) -> Option<(&KeyPath, &Step)> {
        self.last.as_ref().map(|link| (&link.outer, &link.step))
    }

    /// The path with a step more.
    pub(super) fn below(&self, step: Step) -> KeyPath {
        KeyPath { last: Some(Arc::new(Link { outer: self.clone(), step })) }
    }

    /// The links, the outermost first.
    fn links(&self) -> Vec<&Arc<Link>> {
        let mut links = Vec::new();
        let mut path = self;
        while let Some(link) = &path.last {
            links.push(link);
            path = &link.outer;
        }
        links.reverse();
        links
    }
}

/// Goes by a loop, so that a path of any length is dropped on a small stack.
impl Drop for KeyPath {
    fn drop(&mut self) {
        let mut last = self.last.take();
        while let Some(link) = last {
            // (what another path has too stays)
            last = Arc::into_inner(link).and_then(|mut link| link.outer.last.take());
        }
    }
}

/// The path of these steps, the outermost first.
impl FromIterator<Step> for KeyPath {
    fn from_iter<T: IntoIterator<Item = Step>>(steps: T) -> KeyPath {
        steps.into_iter().fold(KeyPath::default(), |path, step| path.below(step))
    }
}

/// The path of these keys or steps, the outermost first.
///
/// ```
/// use cargo_manifest::{KeyPath, Step};
///
/// assert_eq!(KeyPath::from(["package", "edition"]).to_string(), "package.edition");
/// assert_eq!(KeyPath::from([Step::from("bin"), Step::from(0), Step::from("name")]).to_string(), "bin[0].name");
/// ```
impl<T: Into<Step>, const N: usize> From<[T; N]> for KeyPath {
    fn from(steps: [T; N]) -> KeyPath {
        steps.into_iter().map(Into::into).collect()
    }
}

/// By their steps, the outermost first.
impl Ord for KeyPath {
    fn cmp(&self, other: &KeyPath) -> Ordering {
        let (own, others) = (self.links(), other.links());
        // (steps that both paths share are not looked at)
        let shared = own.iter().zip(&others).take_while(|(one, other)| Arc::ptr_eq(one, other)).count();
        own[shared..].iter().map(|link| &link.step).cmp(others[shared..].iter().map(|link| &link.step))
    }
}

impl PartialOrd for KeyPath {
    fn partial_cmp(&self, other: &KeyPath) -> Option<Ordering> {
        Some(self.cmp(other))
    }
}

impl PartialEq for KeyPath {
    fn eq(&self, other: &KeyPath) -> bool {
        self.cmp(other).is_eq()
    }
}

impl Eq for KeyPath {}

impl Hash for KeyPath {
    fn hash<H: Hasher>(&self, state: &mut H) {
        self.steps().hash(state);
    }
}

impl fmt::Debug for KeyPath {
    fn fmt(&self, f: &mut fmt::Formatter<'_>) -> fmt::Result {
        f.debug_struct("KeyPath").field("steps", &self.steps()).finish()
    }
}

impl fmt::Display for KeyPath {
    fn fmt(&self, f: &mut fmt::Formatter<'_>) -> fmt::Result {
        match self.steps().as_slice() {
            [] => f.write_str("(top)"),
            steps => f.write_str(&path_text(steps.iter().copied())),
        }
    }
}
