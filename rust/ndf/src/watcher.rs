//! What a watcher is. notify's watchers have these calls, under the same names.
use crate::config::{Config, RecursiveMode};
use crate::error::Result;
use crate::event::Event;
use std::env;
use std::io;
use std::path::{Component, Path, PathBuf};
use std::sync::mpsc::Sender;

/// What a watcher hands its events to.
pub trait EventHandler: Send + 'static {
    /// Takes an event, or an error of the watcher.
    fn handle_event(&mut self, event: Result<Event>);

    /// Takes what one look told, in order.
    fn handle_events(&mut self, events: Vec<Result<Event>>) {
        events.into_iter().for_each(|event| self.handle_event(event));
    }
}

impl<F: FnMut(Result<Event>) + Send + 'static> EventHandler for F {
    fn handle_event(&mut self, event: Result<Event>) {
        self(event);
    }
}

impl EventHandler for Sender<Result<Event>> {
    fn handle_event(&mut self, event: Result<Event>) {
        let _ = self.send(event);
    }
}

/// Which watcher it is. The names are notify's.
#[derive(Clone, Copy, Debug, PartialEq, Eq, Hash)]
#[non_exhaustive]
pub enum WatcherKind {
    /// Over inotify.
    Inotify,
    /// Over FSEvents.
    Fsevent,
    /// Over kqueue.
    Kqueue,
    /// One that polls.
    PollWatcher,
    /// Over ReadDirectoryChangesW.
    ReadDirectoryChangesWatcher,
    /// One that reports nothing.
    NullWatcher,
}

/// Something that reports what happens to paths.
pub trait Watcher {
    /// Starts the watcher. What it is told is up to it.
    fn new<H: EventHandler>(handler: H, config: Config) -> Result<Self>
    where
        Self: Sized;

    /// Reports what happens at this path from now on.
    fn watch(&mut self, path: &Path, mode: RecursiveMode) -> Result<()>;

    /// Reports what happens at this path no longer.
    fn unwatch(&mut self, path: &Path) -> Result<()>;

    /// Changes what the watcher was told, and answers whether it did.
    fn configure(&mut self, _config: Config) -> Result<bool> {
        Ok(false)
    }

    /// Which watcher it is.
    fn kind() -> WatcherKind
    where
        Self: Sized;
}

/// A watcher that reports nothing.
#[derive(Clone, Copy, Debug, Default)]
pub struct NullWatcher;

impl Watcher for NullWatcher {
    fn new<H: EventHandler>(_: H, _: Config) -> Result<NullWatcher> {
        Ok(NullWatcher)
    }

    fn watch(&mut self, _: &Path, _: RecursiveMode) -> Result<()> {
        Ok(())
    }

    fn unwatch(&mut self, _: &Path) -> Result<()> {
        Ok(())
    }

    fn kind() -> WatcherKind {
        WatcherKind::NullWatcher
    }
}

/// The path from the root of the file system, so that it means the same whatever the current folder becomes.
pub(crate) fn absolute(path: &Path) -> io::Result<PathBuf> {
    let whole = if path.is_absolute() { path.to_path_buf() } else { env::current_dir()?.join(path) };
    Ok(whole.components().filter(|part| *part != Component::CurDir).collect())
}
