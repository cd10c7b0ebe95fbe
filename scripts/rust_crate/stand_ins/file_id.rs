// A stand-in for the crate file_id. No file system is asked, and no path has a number.

use std::path::Path;

#[derive(Clone, Copy, Debug, PartialEq, Eq, Hash, PartialOrd, Ord)]
pub enum FileId {
    Inode {
        device_id: u64,
        inode_number: u64,
    },
}

impl AsRef<FileId> for FileId {
    fn as_ref(&self) -> &FileId {
        self
    }
}

pub fn get_file_id(_path: impl AsRef<Path>) -> std::io::Result<FileId> {
    Err(std::io::ErrorKind::NotFound.into())
}
