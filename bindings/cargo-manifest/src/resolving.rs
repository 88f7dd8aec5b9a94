//! Putting in what a manifest inherits from its workspace: the proved call.

use crate::calls::tables;
use crate::codec::{Aside, Members, Writer};
use crate::error::refused_table;
use crate::reading::encode;
use crate::{Error, Manifest, Workspace};

impl<PackageMetadata, WorkspaceMetadata> Manifest<PackageMetadata, WorkspaceMetadata> {
    /// Puts the package fields, dependencies and lints that the manifest inherits from the workspace in their places:
    /// `workspace` is the field of that name in the manifest of the workspace's root.
    ///
    /// After an error the manifest is what it was.
    ///
    /// ```
    /// use cargo_manifest::{Dependency, Manifest};
    ///
    /// let root: Manifest = "[workspace.dependencies]\nserde = '1'\n".parse()?;
    /// let mut member: Manifest = "[package]\nname = 'a'\n[dependencies]\nserde.workspace = true\n".parse()?;
    /// member.resolve(root.workspace.as_ref().expect("a workspace"))?;
    /// let dependencies = member.dependencies.expect("dependencies");
    /// assert_eq!(dependencies["serde"].req(), "1");
    /// # Ok::<(), cargo_manifest::Error>(())
    /// ```
    pub fn resolve<M>(&mut self, workspace: &Workspace<M>) -> Result<(), Error> {
        let member = encode(self, Aside::default())?;
        let mut writer = Writer::new(Aside::default());
        let mut members = Members::default();
        members.push("workspace", workspace);
        members.encode(&mut writer);
        let (root, _) = writer.finish().map_err(Error::Other)?;
        let resolved = tables::resolved(&member, &root).map_err(refused_table)?;
        self.replace(&resolved);
        Ok(())
    }
}
