//! What is inherited from the workspace.

use crate::calls::Cause;
use crate::codec::{read, Aside, Encode, Expected, Form, Members, Misfit, Reader, Step, Writer, TRUE};
use crate::Value;

/// A property of a package that may be inherited from its workspace, as by `version.workspace = true`.
#[derive(Debug, Clone, PartialEq, Eq)]
pub enum MaybeInherited<T> {
    /// It is inherited.
    Inherited {
        /// Always true.
        workspace: True,
    },
    /// It is the package's own.
    Local(T),
}

impl<T> MaybeInherited<T> {
    /// What is inherited.
    pub fn inherited() -> Self {
        MaybeInherited::Inherited { workspace: True }
    }

    /// The package's own, if it is not inherited.
    pub fn as_local(self) -> Option<T> {
        match self {
            MaybeInherited::Local(own) => Some(own),
            MaybeInherited::Inherited { .. } => None,
        }
    }

    /// The same, by reference.
    pub const fn as_ref(&self) -> MaybeInherited<&T> {
        match self {
            MaybeInherited::Local(own) => MaybeInherited::Local(own),
            MaybeInherited::Inherited { .. } => MaybeInherited::Inherited { workspace: True },
        }
    }
}

impl<T: Form> Form for MaybeInherited<T> {
    fn decode(reader: &mut Reader<'_>) -> Option<Self> {
        if !reader.is_inherited()? {
            return T::decode(reader).map(MaybeInherited::Local);
        }
        let mut keys = reader.table()?;
        keys.next(reader)?;
        let workspace = True::decode(reader)?;
        keys.next(reader)?.is_none().then_some(MaybeInherited::Inherited { workspace })
    }

    fn read(value: Value, aside: &mut Aside) -> Result<Self, Misfit> {
        if read::is_inherited(&value) {
            return Ok(MaybeInherited::inherited());
        }
        T::read(value, aside).map(MaybeInherited::Local)
    }

    fn expected() -> Expected {
        T::expected()
    }

    fn expected_at(path: &[Step]) -> Option<Expected> {
        T::expected_at(path)
    }
}

impl<T: Encode> Encode for MaybeInherited<T> {
    fn encode(&self, writer: &mut Writer) {
        match self {
            MaybeInherited::Local(own) => own.encode(writer),
            MaybeInherited::Inherited { workspace } => {
                let mut members = Members::default();
                members.push("workspace", workspace);
                members.encode(writer);
            }
        }
    }
}

/// The boolean true.
#[derive(Debug, Default, Clone, PartialEq, Eq)]
#[doc(hidden)]
pub struct True;

impl Form for True {
    fn decode(reader: &mut Reader<'_>) -> Option<True> {
        reader.tag(TRUE).map(|()| True)
    }

    fn read(value: Value, _: &mut Aside) -> Result<True, Misfit> {
        match value {
            Value::Boolean(true) => Ok(True),
            Value::Boolean(false) => Err(Misfit::new::<True>(Cause::NotTrue)),
            _ => Err(Misfit::wrong_kind::<True>()),
        }
    }

    fn expected() -> Expected {
        Expected::new("`true`")
    }
}

impl Encode for True {
    fn encode(&self, writer: &mut Writer) {
        writer.boolean(true);
    }
}
