//! Reading a manifest: the proved call, and what its bytes are here.

use crate::calls::{is_broken, tables, Cause, Refusal};
use crate::codec::{Aside, Encode, Form, Reader, Writer};
use crate::error::refused;
use crate::value::{Map, Value};
use crate::{Error, Manifest, Metadata, ParseError};
use std::fs;
use std::path::Path;
use std::str::FromStr;

/// The manifest of a table that the library wrote, with its metadata.
pub(crate) fn decode<P, W>(table: &[u8]) -> (Manifest<P, W>, Aside) {
    let Some((manifest, mut aside)) = decoded(Reader::of_answer(table)) else { is_broken() };
    if cfg!(debug_assertions) {
        let Ok((again, kept)) = written(&manifest, aside) else { panic!("a manifest that was read is not written") };
        assert!(again == table, "a manifest is not written as it was read");
        aside = kept;
    }
    (manifest, aside)
}

/// The same, if the bytes that are read are such a table.
pub(crate) fn decoded<P, W>(mut reader: Reader<'_>) -> Option<(Manifest<P, W>, Aside)> {
    let manifest = Manifest::decode(&mut reader)?;
    reader.is_at_end().then_some((manifest, reader.aside))
}

/// The table of a manifest with this metadata.
pub(crate) fn encode<P, W>(manifest: &Manifest<P, W>, aside: Aside) -> Result<Vec<u8>, Error> {
    written(manifest, aside).map(|(table, _)| table).map_err(Error::Other)
}

/// The same, with the metadata again.
fn written<P, W>(manifest: &Manifest<P, W>, aside: Aside) -> Result<(Vec<u8>, Aside), String> {
    let mut writer = Writer::new(aside);
    manifest.encode(&mut writer);
    writer.finish()
}

impl Manifest {
    /// Reads the bytes of a `Cargo.toml`. Targets that are not declared are not looked for: see
    /// [`complete_from_path`](Manifest::complete_from_path).
    pub fn from_slice(cargo_toml_content: &[u8]) -> Result<Self, Error> {
        Self::from_slice_with_metadata(cargo_toml_content)
    }

    /// Reads a value as the document that it is: by each spelling of a key, by old headers, and with floats in metadata.
    ///
    /// This is done by this crate, which is tested and not proved.
    pub fn from_value(value: Value) -> Result<Self, Error> {
        let old = match &value {
            Value::Table(table) if table.contains_key("package") || table.contains_key("workspace") => None,
            Value::Table(table) => Some(table.get("project").unwrap_or(&value).clone()),
            _ => None,
        };
        let mut aside = Aside::default();
        let mut manifest: Manifest = Form::read(value, &mut aside).map_err(ParseError::from)?;
        if let Some(package) = old {
            manifest.package = Some(Form::read(package, &mut aside).map_err(ParseError::from)?);
        }
        manifest.put(aside);
        Ok(manifest)
    }

    /// Puts the metadata in its places.
    fn put(&mut self, aside: Aside) {
        if let Some(package) = &mut self.package {
            package.metadata = aside.package;
        }
        if let Some(workspace) = &mut self.workspace {
            workspace.metadata = aside.workspace;
        }
    }

    /// Reads a `Cargo.toml` of the disk, and completes it by the folder that it stands in.
    pub fn from_path(cargo_toml_path: impl AsRef<Path>) -> Result<Self, Error> {
        Self::from_path_with_metadata(cargo_toml_path)
    }
}

/// Reads the text of a `Cargo.toml` (not its path), as [`Manifest::from_slice`] does.
impl FromStr for Manifest {
    type Err = Error;

    fn from_str(cargo_toml_content: &str) -> Result<Self, Error> {
        Self::from_slice(cargo_toml_content.as_bytes())
    }
}

/// Reads a TOML document, whatever it means, as a table with all that stands in it.
///
/// ```
/// use cargo_manifest::Value;
///
/// let value: Value = "a = 0.5\n[b]\nc = [1, 'x']\n".parse()?;
/// assert_eq!((value["a"].as_float(), value["b"]["c"][1].as_str()), (Some(0.5), Some("x")));
/// assert!("a = ".parse::<Value>().is_err());
/// # Ok::<(), cargo_manifest::Error>(())
/// ```
impl FromStr for Value {
    type Err = ParseError;

    fn from_str(text: &str) -> Result<Value, ParseError> {
        match tables::document(text.as_bytes()) {
            Ok(document) => Ok(crate::value::decoded(&document).unwrap_or_else(|| is_broken())),
            Err(refusal) => Err(match refused(refusal, text.as_bytes()) {
                Error::Parse(error) => error,
                other => ParseError::of_whole(other.to_string()),
            }),
        }
    }
}

impl<PackageMetadata: Metadata> Manifest<PackageMetadata> {
    /// The same as [`from_slice`](Manifest::from_slice), with `[package.metadata]` read as a type of your own. That
    /// needs the feature `serde`.
    pub fn from_slice_with_metadata(cargo_toml_content: &[u8]) -> Result<Self, Error> {
        let (mut manifest, aside) = read(cargo_toml_content).map_err(|refusal| refused(refusal, cargo_toml_content))?;
        if let Some(package) = &mut manifest.package {
            package.metadata =
                aside.package.map(|value| PackageMetadata::read(value, "package.metadata")).transpose()?;
        }
        if let Some(workspace) = &mut manifest.workspace {
            workspace.metadata = aside.workspace;
        }
        Ok(manifest)
    }

    /// The same as [`from_path`](Manifest::from_path), with `[package.metadata]` read as a type of your own.
    pub fn from_path_with_metadata(cargo_toml_path: impl AsRef<Path>) -> Result<Self, Error> {
        let path = cargo_toml_path.as_ref();
        let mut manifest = Self::from_slice_with_metadata(&fs::read(path)?)?;
        manifest.complete_from_path(path)?;
        Ok(manifest)
    }
}

/// The manifest that the bytes are, with its metadata.
fn read<P, W>(bytes: &[u8]) -> Result<(Manifest<P, W>, Aside), Refusal> {
    let refusal = match tables::table(bytes) {
        Ok(table) => return Ok(decode(&table)),
        Err(refusal) => refusal,
    };
    if !is_float_of_metadata(&refusal) {
        return Err(refusal);
    }
    // metadata with a float is not in the table: it is taken from the document
    let apart = tables::without_metadata(bytes)?;
    let (manifest, _) = decode(&apart.table);
    let Some(Value::Table(document)) = crate::value::decoded(&apart.document) else { is_broken() };
    Ok((manifest, metadata_of(document)))
}

/// Whether a float in metadata is what is refused, under a header of today or an old one.
fn is_float_of_metadata(refusal: &Refusal) -> bool {
    let places = ["package.metadata", "workspace.metadata", "project.metadata", "metadata"];
    let is_at = |path: &str, place| {
        path.strip_prefix(place).is_some_and(|below| below.is_empty() || below.starts_with(['.', '[']))
    };
    match refusal {
        Refusal::Schema { cause: Cause::HoldsFloat, path, .. } => places.iter().any(|place| is_at(path, place)),
        _ => false,
    }
}

/// The metadata of a document, which stands under an old header where there is no current one.
fn metadata_of(mut document: Map) -> Aside {
    let mut metadata = |key| document.get_mut(key)?.as_table_mut()?.remove("metadata");
    let (package, workspace) = (metadata("package"), metadata("workspace"));
    let package =
        match (document.contains_key("package") || document.contains_key("workspace"), document.get_mut("project")) {
            (true, _) => package,
            (false, Some(project)) => project.as_table_mut().and_then(|project| project.remove("metadata")),
            (false, None) => document.remove("metadata"),
        };
    Aside { package, workspace }
}
