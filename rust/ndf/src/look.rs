//! What stands at paths, as far as it was looked at. A watcher's notice is only a place to look at: what a look finds is
//! said to the library, which tells how that differs from what was known. So what is reported is honest, whatever was
//! noticed twice, late or wrongly.
//!
//! [`Looker`] looks wherever it is told to, so that any watcher will do, as notify's:
//!
//! ```
//! use ndf::{look::Looker, notify, notify::Watcher as _};
//! # use std::path::Path;
//! # #[cfg(target_os = "linux")]
//! struct Native(notify::RecommendedWatcher, Looker);
//!
//! # #[cfg(target_os = "linux")]
//! impl ndf::Watcher for Native {
//!     fn new<H: ndf::EventHandler>(handler: H, _: ndf::Config) -> ndf::Result<Native> {
//!         let looker = Looker::new(handler)?;
//!         let told = looker.clone();
//!         let watcher = notify::recommended_watcher(move |event: notify::Result<notify::Event>| match event {
//!             Ok(event) if event.need_rescan() => told.report_all(),
//!             Ok(event) if event.kind.is_create() || event.kind.is_modify() => told.report_anew(event.paths),
//!             Ok(event) => told.report(event.paths),
//!             Err(error) => told.report_error(ndf::Error::generic(&error.to_string())),
//!         });
//!         Ok(Native(watcher.map_err(|error| ndf::Error::generic(&error.to_string()))?, looker))
//!     }
//!
//!     fn watch(&mut self, path: &Path, mode: ndf::RecursiveMode) -> ndf::Result<()> {
//!         let deep = if mode.is_recursive() { notify::RecursiveMode::Recursive } else { notify::RecursiveMode::NonRecursive };
//!         self.0.watch(path, deep).map_err(|error| ndf::Error::generic(&error.to_string()))?;
//!         self.1.watch(path, mode)
//!     }
//!
//!     fn unwatch(&mut self, path: &Path) -> ndf::Result<()> {
//!         self.1.unwatch(path);
//!         self.0.unwatch(path).map_err(|error| ndf::Error::generic(&error.to_string()))
//!     }
//!
//!     fn kind() -> ndf::WatcherKind {
//!         ndf::WatcherKind::Fsevent // that of the system
//!     }
//! }
//! ```
use crate::config::RecursiveMode;
use crate::core::Core;
use crate::error::{Error, ErrorKind, Result};
use crate::event::{Event, EventKind, Flag, MetadataKind, ModifyKind};
use crate::watcher::{absolute, EventHandler};
use std::collections::BTreeMap;
use std::fs::{self, Metadata};
use std::io;
use std::mem;
use std::path::{Path, PathBuf};
use std::sync::mpsc::{self, Receiver, Sender};
use std::thread;
use std::time::UNIX_EPOCH;

/// What kind of thing stands at a path.
#[derive(Clone, Copy, Debug, PartialEq, Eq, Hash)]
pub enum StandsKind {
    /// A file.
    File,
    /// A folder.
    Folder,
    /// Something else, as a link.
    Other,
}

/// What stands at a path. Two of them are told as a change if their length, time or number differs.
#[derive(Clone, Copy, Debug, PartialEq, Eq, Hash)]
pub struct Stands {
    /// The kind.
    pub kind: StandsKind,
    /// 0 for all but a file.
    pub length: u64,
    /// When a file was modified, in nanoseconds since 1970.
    pub modified: Option<u64>,
    /// The device and the inode, by which a move is found.
    pub number: Option<(u32, u64)>,
}

impl From<&Metadata> for Stands {
    fn from(data: &Metadata) -> Stands {
        let kind = match (data.is_file(), data.is_dir()) {
            (true, _) => StandsKind::File,
            (_, true) => StandsKind::Folder,
            _ => StandsKind::Other,
        };
        let since = data.modified().ok().and_then(|time| time.duration_since(UNIX_EPOCH).ok());
        let modified = since.and_then(|since| u64::try_from(since.as_nanos()).ok());
        #[cfg(unix)]
        let number = {
            use std::os::unix::fs::MetadataExt;
            Some((data.dev() as u32, data.ino()))
        };
        #[cfg(not(unix))]
        let number = None;
        let is_file = kind == StandsKind::File;
        Stands { kind, length: if is_file { data.len() } else { 0 }, modified: modified.filter(|_| is_file), number }
    }
}

impl Stands {
    pub(crate) fn is_folder(&self) -> bool {
        self.kind == StandsKind::Folder
    }

    /// Whether it is the same thing, which may have been written.
    pub(crate) fn is_same(&self, other: &Stands) -> bool {
        self.kind == other.kind && self.number == other.number
    }
}

/// Why to look at a place.
#[derive(Clone, Copy, Debug, Default)]
pub(crate) struct Reason {
    /// A folder may have come or gone: all below it is looked at too.
    pub whole: bool,
    /// A file may have been written, or be another one, which its length and time don't show.
    pub anew: bool,
    /// A file was written, which its further names don't show either.
    pub written: bool,
    /// The mode, owner or time was changed.
    pub touched: bool,
}

impl Reason {
    pub const WHOLE: Reason = Reason { whole: true, anew: false, written: false, touched: false };

    fn and(self, other: Reason) -> Reason {
        Reason {
            whole: self.whole || other.whole,
            anew: self.anew || other.anew,
            written: self.written || other.written,
            touched: self.touched || other.touched,
        }
    }
}

/// Where to look, each path after the folder in which it stands.
pub(crate) type Places = BTreeMap<PathBuf, Reason>;

pub(crate) fn add_place(places: &mut Places, path: PathBuf, reason: Reason) {
    let known = places.entry(path).or_default();
    *known = known.and(reason);
}

/// What a look at a place has shown.
enum Seen {
    /// What was known.
    Same,
    /// Something else, or nothing.
    Changed,
    /// All that is below the path too.
    Whole,
}

/// What watches folders.
pub(crate) trait Folders {
    /// Watches a folder, before it is listed, or a root; whether it wasn't watched under this path.
    fn watch(&mut self, path: &Path, stands: &Stands, is_root: bool) -> Result<bool>;

    /// The folders that are watched.
    fn all(&self) -> Vec<PathBuf>;
}

/// What stands at the roots and below them.
pub(crate) struct Looks {
    /// A debouncer that emits at once what it is fed: the library's looks, without waiting.
    core: Core,
    /// How many events were fed: their moments.
    moment: u64,
    roots: Vec<(PathBuf, RecursiveMode)>,
    /// Whether something couldn't be looked at.
    is_blind: bool,
    reports: Vec<Result<Event>>,
}

impl Looks {
    pub fn new() -> Result<Looks> {
        Ok(Looks { core: Core::new(0)?, moment: 0, roots: Vec::new(), is_blind: false, reports: Vec::new() })
    }

    pub fn roots(&self) -> impl Iterator<Item = &PathBuf> {
        self.roots.iter().map(|(path, _)| path)
    }

    pub fn known(&mut self, path: &Path) -> Option<Stands> {
        self.core.known(path).unwrap_or(None)
    }

    pub fn is_blind(&self) -> bool {
        self.is_blind
    }

    pub fn covers(&self, path: &Path) -> bool {
        covers(&self.roots, path)
    }

    /// Adds all roots to the places, with what is below them.
    pub fn add_all(&self, places: &mut Places) {
        self.roots().for_each(|root| add_place(places, root.clone(), Reason::WHOLE));
    }

    /// Whether it is known what is in a folder.
    pub fn lists(&self, folder: &Path) -> bool {
        self.roots.iter().any(|(root, mode)| folder == root || (mode.is_recursive() && folder.starts_with(root)))
    }

    fn is_root(&self, path: &Path) -> bool {
        self.roots.iter().any(|(root, _)| root == path)
    }

    /// What stands there now: a link counts as what it leads to if it is a root.
    pub fn standing(&self, path: &Path) -> io::Result<Option<Stands>> {
        let data = if self.is_root(path) { fs::metadata(path) } else { fs::symlink_metadata(path) };
        match data {
            Ok(data) => Ok(Some(Stands::from(&data))),
            Err(error) if is_gone(&error) => Ok(None),
            Err(error) => Err(error),
        }
    }

    /// Begins to know a root, and what stands in it. That is reported only if another root had covered it already. If a
    /// folder can't be watched, it is an error, and the root isn't there.
    pub fn add_root(&mut self, path: &Path, mode: RecursiveMode, folders: &mut dyn Folders) -> Result<Vec<Event>> {
        let before = self.roots.clone();
        self.remove_root(path);
        self.roots.push((path.to_path_buf(), mode));
        let added = match self.standing(path) {
            Ok(Some(_)) => self.look(Places::from([(path.to_path_buf(), Reason::WHOLE)]), folders),
            Ok(None) => Err(Error::path_not_found().add_path(path.to_path_buf())),
            Err(error) => Err(refused(error, path)),
        };
        // The first error that isn't of a single name, which is left out, is the answer.
        let added =
            added.and_then(|reports| reports.into_iter().filter(|it| !is_of_name(it)).collect::<Result<Vec<Event>>>());
        if added.is_err() {
            self.roots = before.clone();
        }
        Ok(added?.into_iter().filter(|event| event.paths.iter().any(|it| covers(&before, it))).collect())
    }

    /// Whether there was such a root.
    pub fn remove_root(&mut self, path: &Path) -> bool {
        let many = self.roots.len();
        self.roots.retain(|(root, _)| root != path);
        self.roots.len() < many
    }

    /// One look at all places: what it found to have changed.
    pub fn look(&mut self, places: Places, folders: &mut dyn Folders) -> Result<Vec<Result<Event>>> {
        // What a refusal has left of the last look comes first.
        self.feed()?;
        self.say_written(&places, folders)?;
        let mut touched = Vec::new();
        let mut whole: Option<&Path> = None;
        for (path, reason) in &places {
            if whole.is_some_and(|top| path.starts_with(top)) {
                continue;
            }
            match self.look_at(path, *reason, folders)? {
                Seen::Whole => {
                    whole = Some(path);
                    self.look_at_roots_below(path, folders)?;
                }
                Seen::Same if reason.touched => touched.push(path),
                Seen::Same | Seen::Changed => {}
            }
        }
        self.end(&touched)
    }

    /// Nothing of what was known stands at the path any longer.
    pub fn lose(&mut self, path: &Path) -> Result<Vec<Result<Event>>> {
        self.feed()?;
        self.say(path, |core| core.gone(path))?;
        self.end(&[])
    }

    /// Says of what was written that it was. A file of several names was written under all of them.
    fn say_written(&mut self, places: &Places, folders: &mut dyn Folders) -> Result<()> {
        let mut numbers = Vec::new();
        for (path, reason) in places {
            if reason.written {
                numbers.extend(self.number_of_several_names(path));
            }
            if reason.anew || reason.written {
                self.say(path, |core| core.changed(path))?;
            }
        }
        if numbers.is_empty() {
            return Ok(());
        }
        for path in folders.all().iter().flat_map(|folder| names_of(folder, &numbers)) {
            if let Ok(Some(stands)) = self.standing(&path) {
                self.say(&path, |core| core.changed(&path))?;
                self.say(&path, |core| core.found(&path, &stands))?;
            }
        }
        Ok(())
    }

    /// The number of a file, if it may have further names.
    fn number_of_several_names(&mut self, path: &Path) -> Option<u64> {
        match fs::symlink_metadata(path) {
            Ok(data) => inode_of_several(&data),
            Err(_) => self.known(path).filter(|it| it.kind == StandsKind::File)?.number.map(|(_, inode)| inode),
        }
    }

    fn look_at(&mut self, path: &Path, reason: Reason, folders: &mut dyn Folders) -> Result<Seen> {
        let Ok(stands) = self.standing(path) else {
            self.is_blind = true;
            return Ok(Seen::Changed);
        };
        let before = self.known(path);
        let Some(stands) = stands else {
            if before.is_some() {
                self.say(path, |core| core.gone(path))?;
            }
            return Ok(if before.is_some() { Seen::Whole } else { Seen::Same });
        };
        if self.is_root(path) {
            self.find_folders_above(path)?;
        }
        let is_same = before.is_some_and(|before| before.is_same(&stands));
        let is_listed = stands.is_folder() && self.lists(path);
        if is_listed || self.is_root(path) {
            let is_new = self.watch(path, &stands, folders);
            if is_listed && (!is_same || reason.whole || is_new) {
                self.find(path, &stands, before.is_some(), folders)?;
                return Ok(Seen::Whole);
            }
        }
        self.say(path, |core| core.found(path, &stands))?;
        Ok(if before == Some(stands) { Seen::Same } else { Seen::Changed })
    }

    /// Whether a folder wasn't watched under this path.
    fn watch(&mut self, path: &Path, stands: &Stands, folders: &mut dyn Folders) -> bool {
        folders.watch(path, stands, self.is_root(path)).unwrap_or_else(|error| {
            self.is_blind = true;
            // One folder above the limit stands for all.
            if !(is_of_limit(&error) && self.reports.iter().any(|it| it.as_ref().is_err_and(is_of_limit))) {
                self.reports.push(Err(error));
                self.reports.push(Ok(Event::new(EventKind::Other).set_flag(Flag::Rescan)));
            }
            false
        })
    }

    /// Says that a folder that is watched stands at the path, and what stands in it. What isn't found again is gone, but
    /// not what can't be looked at, if it is the folder that is known.
    fn find(&mut self, path: &Path, stands: &Stands, is_known: bool, folders: &mut dyn Folders) -> Result<()> {
        let is_same = self.is_known_as(path, stands)?;
        let names = match fs::read_dir(path).and_then(Iterator::collect::<io::Result<Vec<_>>>) {
            Ok(names) => names,
            Err(error) if self.is_closed(&error) && is_same => return self.keep(path),
            Err(_) => Vec::new(),
        };
        if is_known {
            self.say(path, |core| core.gone(path))?;
        }
        if !self.say(path, |core| core.found(path, stands))? {
            return Ok(());
        }
        for entry in names {
            let below = entry.path();
            match self.standing(&below) {
                Ok(Some(stands)) if stands.is_folder() && self.lists(&below) => {
                    self.watch(&below, &stands, folders);
                    self.find(&below, &stands, false, folders)?;
                }
                Ok(Some(stands)) => drop(self.say(&below, |core| core.found(&below, &stands))?),
                Err(error) if self.is_closed(&error) && is_same => self.keep(&below)?,
                Ok(None) | Err(_) => {}
            }
        }
        Ok(())
    }

    /// Whether what is known at the path is this, though it may have been written.
    fn is_known_as(&mut self, path: &Path, stands: &Stands) -> Result<bool> {
        match self.core.known(path) {
            Err(error) if matches!(error.kind, ErrorKind::NotText) => Ok(false),
            known => Ok(known?.is_some_and(|known| known.is_same(stands))),
        }
    }

    /// Whether it is no error that says that nothing stands there.
    fn is_closed(&mut self, error: &io::Error) -> bool {
        self.is_blind |= !is_gone(error);
        !is_gone(error)
    }

    /// Says that what is known at the path and below it stands there still.
    fn keep(&mut self, path: &Path) -> Result<()> {
        self.say(path, |core| core.still(path)).map(drop)
    }

    /// A root can lie where no other one reaches.
    fn look_at_roots_below(&mut self, top: &Path, folders: &mut dyn Folders) -> Result<()> {
        let roots: Vec<PathBuf> = self.roots().filter(|root| *root != top && root.starts_with(top)).cloned().collect();
        for root in roots {
            match self.standing(&root) {
                Ok(Some(stands)) => {
                    self.find_folders_above(&root)?;
                    self.watch(&root, &stands, folders);
                    self.find(&root, &stands, false, folders)?;
                }
                Ok(None) => {}
                Err(_) => {
                    self.find_folders_above(&root)?;
                    self.keep(&root)?;
                }
            }
        }
        Ok(())
    }

    fn find_folders_above(&mut self, path: &Path) -> Result<()> {
        let above: Vec<&Path> = path.ancestors().skip(1).collect();
        for folder in above.into_iter().rev().filter(|folder| !folder.as_os_str().is_empty()) {
            match self.standing(folder) {
                Ok(Some(stands)) => drop(self.say(folder, |core| core.found(folder, &stands))?),
                Ok(None) => {}
                Err(_) => self.keep(folder)?,
            }
        }
        Ok(())
    }

    /// Says something to the library; whether it took it.
    fn say(&mut self, path: &Path, call: impl FnOnce(&mut Core) -> Result<()>) -> Result<bool> {
        match call(&mut self.core) {
            Ok(()) => Ok(true),
            Err(error) if matches!(error.kind, ErrorKind::NotText) => {
                self.reports.push(Err(error.add_path(path.to_path_buf())));
                Ok(false)
            }
            // The folder isn't known yet: it is looked at for itself.
            Err(error) if matches!(error.kind, ErrorKind::PathNotFound) => Ok(false),
            Err(error) => Err(error.add_path(path.to_path_buf())),
        }
    }

    /// Feeds what the last look told, one after the other, which keeps its order.
    fn feed(&mut self) -> Result<()> {
        while self.core.feed_look(self.moment)? {
            self.moment += 1;
        }
        Ok(())
    }

    /// Ends the look, and takes what it told.
    fn end(&mut self, touched: &[&PathBuf]) -> Result<Vec<Result<Event>>> {
        self.core.end_look()?;
        self.feed()?;
        let told = self.core.tick(self.moment)?;
        let mut events: Vec<Event> = told.into_iter().map(|emitted| emitted.event).collect();
        for path in touched {
            if self.known(path).is_some() {
                let kind = EventKind::Modify(ModifyKind::Metadata(MetadataKind::Any));
                events.push(Event::new(kind).add_path(path.to_path_buf()));
            }
        }
        events.retain(|event| event.paths.iter().all(|path| self.covers(path)));
        let reports = mem::take(&mut self.reports);
        Ok(events.into_iter().map(Ok).chain(reports).collect())
    }
}

/// Whether there is a root at the path, or one above it whose mode reaches it.
fn covers(roots: &[(PathBuf, RecursiveMode)], path: &Path) -> bool {
    roots.iter().any(|(root, mode)| match mode {
        RecursiveMode::Recursive => path.starts_with(root),
        RecursiveMode::NonRecursive => path == root || path.parent() == Some(root),
    })
}

fn is_of_limit(error: &Error) -> bool {
    matches!(error.kind, ErrorKind::MaxFilesWatch)
}

/// Whether a name is left out, since it isn't UTF-8.
fn is_of_name(report: &Result<Event>) -> bool {
    report.as_ref().is_err_and(|error| matches!(error.kind, ErrorKind::NotText))
}

/// Whether the error says that nothing stands there.
pub(crate) fn is_gone(error: &io::Error) -> bool {
    const NO_FOLDER: i32 = 20;
    error.kind() == io::ErrorKind::NotFound || (cfg!(unix) && error.raw_os_error() == Some(NO_FOLDER))
}

/// The error of a path that can't be watched.
pub(crate) fn refused(error: io::Error, path: &Path) -> Error {
    const NO_SPACE: i32 = 28;
    let kind = match error.raw_os_error() {
        Some(NO_SPACE) if cfg!(unix) => ErrorKind::MaxFilesWatch,
        _ if error.kind() == io::ErrorKind::NotFound => ErrorKind::PathNotFound,
        _ => ErrorKind::Io(error),
    };
    Error::new(kind).add_path(path.to_path_buf())
}

#[cfg(unix)]
fn inode_of_several(data: &Metadata) -> Option<u64> {
    use std::os::unix::fs::MetadataExt;
    (data.is_file() && data.nlink() > 1).then(|| data.ino())
}

#[cfg(not(unix))]
fn inode_of_several(_: &Metadata) -> Option<u64> {
    None
}

/// The paths in a folder that have one of the inodes.
#[cfg(unix)]
fn names_of(folder: &Path, inodes: &[u64]) -> Vec<PathBuf> {
    use std::os::unix::fs::DirEntryExt;
    let entries = fs::read_dir(folder).into_iter().flatten().flatten();
    entries.filter(|entry| inodes.contains(&entry.ino())).map(|entry| entry.path()).collect()
}

#[cfg(not(unix))]
fn names_of(_: &Path, _: &[u64]) -> Vec<PathBuf> {
    Vec::new()
}

/// What a [`Looker`] is told.
enum Request {
    Watch(PathBuf, RecursiveMode, Sender<Result<()>>),
    Unwatch(PathBuf),
    Places(Vec<PathBuf>, Reason),
    All,
    Error(Error),
}

/// Looks wherever it is told that something happened, on a thread of its own, and reports how what it finds differs from
/// what was known. The thread ends once the last clone is dropped.
#[derive(Clone, Debug)]
pub struct Looker(Sender<Request>);

impl Looker {
    /// Starts one that knows nothing. The handler is called on its thread.
    pub fn new<H: EventHandler>(handler: H) -> Result<Looker> {
        let (sender, requests) = mpsc::channel();
        let (ready, is_ready) = mpsc::channel();
        thread::Builder::new().name("looker".to_string()).spawn(move || match Looks::new() {
            Ok(looks) => {
                let _ = ready.send(Ok(()));
                go(looks, &requests, handler);
            }
            Err(error) => drop(ready.send(Err(error))),
        })?;
        is_ready.recv()??;
        Ok(Looker(sender))
    }

    /// Begins to know what stands at a path, which is watched already. What stands there now isn't reported.
    pub fn watch(&self, path: &Path, mode: RecursiveMode) -> Result<()> {
        let (sender, answer) = mpsc::channel();
        self.send(Request::Watch(absolute(path)?, mode, sender));
        answer.recv()?
    }

    /// Reports nothing of a path any longer.
    pub fn unwatch(&self, path: &Path) {
        if let Ok(path) = absolute(path) {
            self.send(Request::Unwatch(path));
        }
    }

    /// Looks at these paths. A folder is listed if it is new, or another one.
    pub fn report(&self, paths: Vec<PathBuf>) {
        self.send(Request::Places(paths, Reason::default()));
    }

    /// Looks at these paths: files there were written, though it may not show, and folders are listed anew.
    pub fn report_anew(&self, paths: Vec<PathBuf>) {
        self.send(Request::Places(paths, Reason { anew: true, ..Reason::WHOLE }));
    }

    /// Looks at all that is watched, since something was lost.
    pub fn report_all(&self) {
        self.send(Request::All);
    }

    /// Hands an error of the watcher on.
    pub fn report_error(&self, error: Error) {
        self.send(Request::Error(error));
    }

    fn send(&self, request: Request) {
        let _ = self.0.send(request);
    }
}

/// No folder of a [`Looker`] is watched by it.
struct NoFolders;

impl Folders for NoFolders {
    fn watch(&mut self, _: &Path, _: &Stands, _: bool) -> Result<bool> {
        Ok(false)
    }

    fn all(&self) -> Vec<PathBuf> {
        Vec::new()
    }
}

/// Takes what it is told by now, and looks at all of it at once, so that both halves of a rename meet.
fn go(mut looks: Looks, requests: &Receiver<Request>, mut handler: impl EventHandler) {
    let mut is_incomplete = false;
    while let Ok(first) = requests.recv() {
        let mut places = Places::new();
        for request in std::iter::once(first).chain(requests.try_iter()) {
            match request {
                Request::Watch(path, mode, answer) => {
                    let added = looks.add_root(&path, mode, &mut NoFolders);
                    let told = added.map(|events| handler.handle_events(events.into_iter().map(Ok).collect()));
                    let _ = answer.send(told);
                }
                Request::Unwatch(path) => drop(looks.remove_root(&path)),
                Request::Places(paths, reason) => {
                    let paths = paths.into_iter().filter(|path| looks.covers(path));
                    paths.for_each(|path| add_place(&mut places, path, reason));
                }
                Request::All => looks.add_all(&mut places),
                Request::Error(error) => handler.handle_event(Err(error)),
            }
        }
        if mem::take(&mut is_incomplete) {
            looks.add_all(&mut places);
        }
        match looks.look(places, &mut NoFolders) {
            Ok(reports) => handler.handle_events(reports),
            Err(error) => {
                is_incomplete = true;
                handler.handle_event(Err(error));
            }
        }
    }
}
