//! The types of a manifest.

use super::value::ValueVisitor;
use super::ValueError;
use crate::codec::{read, Aside, Form};
use crate::value::Value;
use crate::{Badge, Badges, Dependency, DependencyDetail, Edition, InheritedDependencyDetail, Lint, LintConfig};
use crate::{LintLevel, Maintenance, MaintenanceStatus, Manifest, MaybeInherited, MaybeInheritedLintsSet, Package};
use crate::{ParseError, Product, Profile, Profiles, Publish, Resolver, StringOrBool, StripSetting, Target, True};
use crate::{Workspace, WorkspacePackage};
use ::serde::de::{Deserializer, Error};
use ::serde::ser::{SerializeMap, Serializer};
use ::serde::{Deserialize, Serialize};

/// The value that is read next, as a type of a manifest, with the metadata that was met in it.
fn read_form<'de, T: Form, D: Deserializer<'de>>(deserializer: D) -> Result<(T, Aside), D::Error> {
    let value = match T::keys() {
        // (so the keys are taken out of what else is flattened into one type)
        Some((name, keys)) => deserializer.deserialize_struct(name, keys, ValueVisitor("a table"))?,
        None => Value::deserialize(deserializer)?,
    };
    let mut aside = Aside::default();
    let read = T::read(value, &mut aside).map_err(|misfit| D::Error::custom(ParseError::from(misfit)))?;
    Ok((read, aside))
}

/// The metadata that was met, as its own type.
fn read_metadata<'de, M: Deserialize<'de>, E: Error>(aside: Option<Value>, path: &str) -> Result<Option<M>, E> {
    let read = aside.map(|value| M::deserialize(value)).transpose();
    read.map_err(|error: ValueError| E::custom(ParseError::of_metadata(path, &error.to_string())))
}

macro_rules! deserialize {
    ($($name:ident)+) => {
        $(
            impl<'de> Deserialize<'de> for $name {
                fn deserialize<D: Deserializer<'de>>(deserializer: D) -> Result<$name, D::Error> {
                    read_form(deserializer).map(|(read, _)| read)
                }
            }
        )+
    };
}

deserialize! {
    Badge Badges Dependency DependencyDetail Edition InheritedDependencyDetail Lint LintConfig LintLevel Maintenance
    MaintenanceStatus MaybeInheritedLintsSet Product Profile Profiles Publish Resolver StringOrBool StripSetting Target True
    WorkspacePackage
}

impl<'de, M: Deserialize<'de>> Deserialize<'de> for Package<M> {
    fn deserialize<D: Deserializer<'de>>(deserializer: D) -> Result<Package<M>, D::Error> {
        let (mut package, aside): (Package<M>, _) = read_form(deserializer)?;
        package.metadata = read_metadata(aside.package, "metadata")?;
        Ok(package)
    }
}

impl<'de, M: Deserialize<'de>> Deserialize<'de> for Workspace<M> {
    fn deserialize<D: Deserializer<'de>>(deserializer: D) -> Result<Workspace<M>, D::Error> {
        let (mut workspace, aside): (Workspace<M>, _) = read_form(deserializer)?;
        workspace.metadata = read_metadata(aside.workspace, "metadata")?;
        Ok(workspace)
    }
}

impl<'de, P: Deserialize<'de>, W: Deserialize<'de>> Deserialize<'de> for Manifest<P, W> {
    fn deserialize<D: Deserializer<'de>>(deserializer: D) -> Result<Manifest<P, W>, D::Error> {
        let (mut manifest, aside): (Manifest<P, W>, _) = read_form(deserializer)?;
        if let Some(package) = &mut manifest.package {
            package.metadata = read_metadata(aside.package, "package.metadata")?;
        }
        if let Some(workspace) = &mut manifest.workspace {
            workspace.metadata = read_metadata(aside.workspace, "workspace.metadata")?;
        }
        Ok(manifest)
    }
}

impl<'de, T: Deserialize<'de>> Deserialize<'de> for MaybeInherited<T> {
    fn deserialize<D: Deserializer<'de>>(deserializer: D) -> Result<MaybeInherited<T>, D::Error> {
        let value = Value::deserialize(deserializer)?;
        if read::is_inherited(&value) {
            return Ok(MaybeInherited::inherited());
        }
        T::deserialize(value).map(MaybeInherited::Local).map_err(D::Error::custom)
    }
}

macro_rules! words {
    ($($name:ident)+) => {
        $(
            impl Serialize for $name {
                fn serialize<S: Serializer>(&self, serializer: S) -> Result<S::Ok, S::Error> {
                    serializer.serialize_str(self.as_str())
                }
            }
        )+
    };
}

words! { Edition LintLevel MaintenanceStatus Resolver }

macro_rules! one_of {
    ($($name:ident { $($variant:ident)+ })+) => {
        $(
            impl Serialize for $name {
                fn serialize<S: Serializer>(&self, serializer: S) -> Result<S::Ok, S::Error> {
                    match self {
                        $($name::$variant(held) => held.serialize(serializer),)+
                    }
                }
            }
        )+
    };
}

one_of! {
    Dependency { Simple Inherited Detailed }
    Lint { Level Config }
    Publish { Flag Registry }
    StringOrBool { String Bool }
}

impl Serialize for True {
    fn serialize<S: Serializer>(&self, serializer: S) -> Result<S::Ok, S::Error> {
        serializer.serialize_bool(true)
    }
}

impl Serialize for StripSetting {
    fn serialize<S: Serializer>(&self, serializer: S) -> Result<S::Ok, S::Error> {
        match self {
            StripSetting::None => serializer.serialize_bool(false),
            StripSetting::Debuginfo => serializer.serialize_str("debuginfo"),
            StripSetting::Symbols => serializer.serialize_bool(true),
        }
    }
}

impl<T: Serialize> Serialize for MaybeInherited<T> {
    fn serialize<S: Serializer>(&self, serializer: S) -> Result<S::Ok, S::Error> {
        match self {
            MaybeInherited::Local(own) => own.serialize(serializer),
            MaybeInherited::Inherited { workspace } => {
                let mut members = serializer.serialize_map(Some(1))?;
                members.serialize_entry("workspace", workspace)?;
                members.end()
            }
        }
    }
}
