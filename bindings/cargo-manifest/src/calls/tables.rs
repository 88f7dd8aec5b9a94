//! Calls on the tagged bytes of a whole manifest's table.

use super::declared::{self, complete_table, of_table, of_text, read, resolve_table, text_of, Output, ANY};
use super::{Apart, Listings, Refusal};

/// The table of the manifest that the bytes are.
pub(crate) fn table(bytes: &[u8]) -> Result<Vec<u8>, Refusal> {
    read(Output::Table, bytes, ANY)
}

/// The same with an empty table in the place of metadata, and the document that has it: where metadata has a float.
pub(crate) fn without_metadata(bytes: &[u8]) -> Result<Apart, Refusal> {
    let table = of_text(declared::manifest_table_without_metadata, bytes, ANY)?;
    let document = document(bytes)?;
    Ok(Apart { table, document })
}

/// The table that the bytes are as TOML, whatever it means.
pub(crate) fn document(bytes: &[u8]) -> Result<Vec<u8>, Refusal> {
    of_text(declared::manifest_document, bytes, ANY)
}

/// The canonical text of a table.
pub(crate) fn canonical(table: &[u8]) -> Result<String, Refusal> {
    of_table(table).map(text_of)
}

/// The table, completed over listings.
pub(crate) fn completed(table: &[u8], listings: &Listings) -> Result<Vec<u8>, Refusal> {
    complete_table(table, listings)
}

/// The table, with what it inherits from the workspace of the root's put in.
pub(crate) fn resolved(member: &[u8], root: &[u8]) -> Result<Vec<u8>, Refusal> {
    resolve_table(member, root)
}
