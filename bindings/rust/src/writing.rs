//! Writing a manifest: the proved call, and metadata with floats after its text.

use crate::calls::{is_broken, tables, DEPTH_LIMIT};
use crate::codec::Aside;
use crate::error::{refused, refused_table, too_deep};
use crate::metadata::WrittenMetadata;
use crate::reading::encode;
use crate::value::{decoded, inline, lines, short, Value};
use crate::{Error, Manifest};

impl<PackageMetadata: WrittenMetadata, WorkspaceMetadata: WrittenMetadata>
    Manifest<PackageMetadata, WorkspaceMetadata>
{
    /// The canonical text of the manifest: its keys in the order of their bytes, each by its first spelling.
    ///
    /// The text comes from the proved writer. Metadata with a float in it is written after that text by this crate,
    /// which is tested and not proved.
    ///
    /// A manifest that no table can hold is an [`Error::Other`]: a custom profile named as one of the other fields of
    /// [`Profiles`](crate::Profiles), a tool of `lints` named `workspace`, a float outside of metadata, and values that nest
    /// deeper than [`DEPTH_LIMIT`](crate::calls::DEPTH_LIMIT).
    ///
    /// ```
    /// use cargo_manifest::{Manifest, Package, Product};
    ///
    /// let mut manifest: Manifest = Manifest::default();
    /// manifest.package = Some(Package::new("hello".into(), "0.1.0".into()));
    /// manifest.bin.push(Product { name: Some("hello".into()), edition: None, ..Product::default() });
    /// assert_eq!(
    ///     manifest.to_toml_string()?,
    ///     "[[bin]]\nname = \"hello\"\nrequired-features = []\n\n[package]\nname = \"hello\"\nversion = \"0.1.0\"\n"
    /// );
    /// # Ok::<(), cargo_manifest::Error>(())
    /// ```
    pub fn to_toml_string(&self) -> Result<String, Error> {
        let package = self.package.as_ref().and_then(|package| package.metadata.as_ref());
        let workspace = self.workspace.as_ref().and_then(|workspace| workspace.metadata.as_ref());
        let mut aside = Aside {
            package: package.map(|metadata| metadata.written("package.metadata")).transpose()?,
            workspace: workspace.map(|metadata| metadata.written("workspace.metadata")).transpose()?,
        };
        let holds_float = |value: &mut Value| value.holds_float();
        let after =
            [("package", aside.package.take_if(holds_float)), ("workspace", aside.workspace.take_if(holds_float))];
        let mut text = tables::canonical(&encode(self, aside)?).map_err(refused_table)?;
        for (table, metadata) in after {
            if let Some(metadata) = metadata {
                // (the table of the header stands around it)
                if metadata.depth() > DEPTH_LIMIT - 1 {
                    return Err(Error::Other(too_deep()));
                }
                put_metadata(&mut text, table, &metadata);
            }
        }
        Ok(text)
    }
}

impl Manifest {
    /// The one table of the manifest, as a value.
    pub fn to_value(&self) -> Result<Value, Error> {
        let Some(mut value) = decoded(&encode(self, Aside::default())?) else { is_broken() };
        let package = self.package.as_ref().and_then(|package| package.metadata.clone());
        let workspace = self.workspace.as_ref().and_then(|workspace| workspace.metadata.clone());
        for (table, metadata) in [("package", package), ("workspace", workspace)] {
            if let (Some(metadata), Some(Value::Table(table))) = (metadata, value.get_mut(table)) {
                table.insert("metadata".into(), metadata);
            }
        }
        Ok(value)
    }
}

/// Puts the metadata of a table into a canonical text, which has the header of that table in a line of its own.
fn put_metadata(text: &mut String, table: &str, metadata: &Value) {
    if let Value::Table(members) = metadata {
        text.push_str(&format!("\n[{table}.metadata]\n"));
        // (writing to a string does not fail)
        let _ = lines(members, short, text);
        return;
    }
    let header = format!("[{table}]\n");
    let is_line = |place: &usize| *place == 0 || text.as_bytes()[place - 1] == b'\n';
    let mut line = String::from("metadata = ");
    let _ = inline(metadata, short, &mut line);
    line.push('\n');
    let found = text.match_indices(&header).map(|(place, _)| place).find(is_line);
    match found {
        Some(place) => text.insert_str(place + header.len(), &line),
        None => text.push_str(&format!("\n{header}{line}")),
    }
}

/// The canonical text of the manifest that the bytes are, all of it by the proved writer. So metadata with a float is
/// refused here; [`Manifest::to_toml_string`] writes it.
///
/// ```
/// let text = cargo_manifest::canonical(b"name = 'a'\nedition = '2021'")?; // an old header
/// assert_eq!(text, "[package]\nedition = \"2021\"\nname = \"a\"\n");
/// # Ok::<(), cargo_manifest::Error>(())
/// ```
pub fn canonical(cargo_toml_content: &[u8]) -> Result<String, Error> {
    crate::calls::canonical(cargo_toml_content).map_err(|refusal| refused(refusal, cargo_toml_content))
}
