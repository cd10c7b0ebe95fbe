//! notify's names, for programs that are written for it.
pub use crate::config::{Config, RecursiveMode};
pub use crate::error::{Error, ErrorKind, Result};
pub use crate::event::{self, Event, EventKind};
pub use crate::watcher::{EventHandler, NullWatcher, Watcher, WatcherKind};
#[cfg(target_os = "linux")]
pub use crate::{inotify::INotifyWatcher, RecommendedWatcher};

/// Starts the watcher for this system.
#[cfg(target_os = "linux")]
pub fn recommended_watcher<H: EventHandler>(handler: H) -> Result<RecommendedWatcher> {
    RecommendedWatcher::new(handler, Config::default())
}
