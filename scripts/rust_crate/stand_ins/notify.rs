// A stand-in for the crate notify: errors, the trait of watchers, and a watcher that does nothing.

use std::path::{Path, PathBuf};
use std::time::Duration;

pub use notify_types::event;
pub use notify_types::event::{Event, EventKind};

#[derive(Debug)]
pub enum ErrorKind {
    Generic(String),
    Io(std::io::Error),
    PathNotFound,
    WatchNotFound,
}

#[derive(Debug)]
pub struct Error {
    pub kind: ErrorKind,
    pub paths: Vec<PathBuf>,
}

pub type Result<T> = std::result::Result<T, Error>;

impl Error {
    pub fn new(kind: ErrorKind) -> Self {
        Self {
            kind,
            paths: Vec::new(),
        }
    }
}

impl From<std::io::Error> for Error {
    fn from(error: std::io::Error) -> Self {
        Error::new(ErrorKind::Io(error))
    }
}

#[derive(Clone, Copy, Debug, PartialEq, Eq, Hash)]
pub enum RecursiveMode {
    Recursive,
    NonRecursive,
}

#[derive(Clone, Copy, Debug, PartialEq, Eq, Hash)]
pub enum WatcherKind {
    NullWatcher,
}

#[derive(Clone, Copy, Debug)]
pub struct Config {
    pub poll_interval: Duration,
}

impl Default for Config {
    fn default() -> Self {
        Self {
            poll_interval: Duration::from_secs(1),
        }
    }
}

pub trait EventHandler: Send + 'static {
    fn handle_event(&mut self, event: Result<Event>);
}

impl<F> EventHandler for F
where
    F: FnMut(Result<Event>) + Send + 'static,
{
    fn handle_event(&mut self, event: Result<Event>) {
        (self)(event);
    }
}

pub trait Watcher {
    fn new<F: EventHandler>(event_handler: F, config: Config) -> Result<Self>
    where
        Self: Sized;

    fn watch(&mut self, path: &Path, recursive_mode: RecursiveMode) -> Result<()>;

    fn unwatch(&mut self, path: &Path) -> Result<()>;

    fn configure(&mut self, _option: Config) -> Result<bool> {
        Ok(false)
    }

    fn kind() -> WatcherKind
    where
        Self: Sized;
}

#[derive(Debug)]
pub struct NullWatcher;

impl Watcher for NullWatcher {
    fn new<F: EventHandler>(_event_handler: F, _config: Config) -> Result<Self> {
        Ok(NullWatcher)
    }

    fn watch(&mut self, _path: &Path, _recursive_mode: RecursiveMode) -> Result<()> {
        Ok(())
    }

    fn unwatch(&mut self, _path: &Path) -> Result<()> {
        Ok(())
    }

    fn kind() -> WatcherKind {
        WatcherKind::NullWatcher
    }
}

pub type RecommendedWatcher = NullWatcher;
