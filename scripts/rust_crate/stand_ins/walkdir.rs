// A stand-in for the crate walkdir: a walk that finds nothing.

use std::path::{Path, PathBuf};

pub struct WalkDir;

pub struct DirEntry(PathBuf);

#[derive(Debug)]
pub struct Error;

impl WalkDir {
    pub fn new(_root: impl AsRef<Path>) -> Self {
        WalkDir
    }

    pub fn follow_links(self, _yes: bool) -> Self {
        self
    }

    pub fn max_depth(self, _depth: usize) -> Self {
        self
    }
}

impl IntoIterator for WalkDir {
    type Item = Result<DirEntry, Error>;
    type IntoIter = std::iter::Empty<Self::Item>;

    fn into_iter(self) -> Self::IntoIter {
        std::iter::empty()
    }
}

impl DirEntry {
    pub fn into_path(self) -> PathBuf {
        self.0
    }
}
