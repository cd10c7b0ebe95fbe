//! Caches of file numbers, by the names of notify-debouncer-full. By the number of their file two halves of a rename
//! find each other that have no common tracker: a watcher over inotify gives each rename a tracker, so on Linux none
//! is kept unless it is asked for.
use crate::config::RecursiveMode;
use crate::file_id::{get_file_id, FileId};
use std::collections::HashMap;
use std::fs;
use std::path::{Path, PathBuf};

/// What knows the number of the file at a path. The debouncer asks it before an event is fed, and tells the core what
/// it answers.
pub trait FileIdCache {
    /// The number that is known of this path; the disk isn't asked.
    fn cached_file_id(&self, path: &Path) -> Option<impl AsRef<FileId>>;

    /// Something may have come to this path: its number is to be known, and by the mode those below it.
    fn add_path(&mut self, path: &Path, mode: RecursiveMode);

    /// Nothing stands at this path any longer, nor below it.
    fn remove_path(&mut self, path: &Path);

    /// Events were lost: the numbers below these roots are to be known.
    fn rescan(&mut self, roots: &[(PathBuf, RecursiveMode)]) {
        roots.iter().for_each(|(path, mode)| self.add_path(path, *mode));
    }
}

/// The numbers of the files at all paths that it was told of.
#[derive(Clone, Debug, Default)]
pub struct FileIdMap {
    numbers: HashMap<PathBuf, FileId>,
}

impl FileIdMap {
    /// A map that knows no number.
    pub fn new() -> FileIdMap {
        FileIdMap::default()
    }

    /// Asks for the number of a path, and of what is below it, in so many further folders. Links are not followed.
    fn scan(&mut self, path: &Path, deeper: usize) {
        if let Ok(number) = get_file_id(path) {
            self.numbers.insert(path.to_path_buf(), number);
        }
        if deeper == 0 {
            return;
        }
        for entry in fs::read_dir(path).into_iter().flatten().flatten() {
            let is_folder = entry.file_type().is_ok_and(|kind| kind.is_dir());
            self.scan(&entry.path(), if is_folder { deeper - 1 } else { 0 });
        }
    }
}

impl FileIdCache for FileIdMap {
    fn cached_file_id(&self, path: &Path) -> Option<impl AsRef<FileId>> {
        self.numbers.get(path)
    }

    fn add_path(&mut self, path: &Path, mode: RecursiveMode) {
        self.scan(path, if mode.is_recursive() { usize::MAX } else { 1 });
    }

    fn remove_path(&mut self, path: &Path) {
        self.numbers.retain(|known, _| !known.starts_with(path));
    }
}

/// A cache that knows nothing.
#[derive(Clone, Copy, Debug, Default)]
pub struct NoCache;

impl NoCache {
    /// A cache that knows nothing.
    pub fn new() -> NoCache {
        NoCache
    }
}

impl FileIdCache for NoCache {
    fn cached_file_id(&self, _: &Path) -> Option<impl AsRef<FileId>> {
        None::<FileId>
    }

    fn add_path(&mut self, _: &Path, _: RecursiveMode) {}

    fn remove_path(&mut self, _: &Path) {}
}

/// The cache for this system's watcher: on Linux none is needed.
#[cfg(any(target_os = "linux", target_os = "android"))]
pub type RecommendedCache = NoCache;

/// The cache for this system's watcher.
#[cfg(not(any(target_os = "linux", target_os = "android")))]
pub type RecommendedCache = FileIdMap;
