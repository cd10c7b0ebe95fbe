//! A debouncer of file events, with the names of notify-debouncer-full, over a core that is proved: what its
//! calls do is proved in the repository that this crate is part of; this crate itself, its threads and its
//! watcher are tested.
//!
//! ```no_run
//! use ndf::{new_debouncer, DebounceEventResult, RecursiveMode};
//! use std::{sync::mpsc, time::Duration};
//!
//! let (sender, reports) = mpsc::channel::<DebounceEventResult>();
//! let mut debouncer = new_debouncer(Duration::from_millis(500), None, sender)?;
//! debouncer.watch("notes", RecursiveMode::Recursive)?;
//! while let Ok(report) = reports.recv() {
//!     match report {
//!         Ok(batch) => println!("{} changes, first {:?}", batch.len(), batch[0].paths),
//!         Err(errors) => eprintln!("{} errors, first: {}", errors.len(), errors[0]),
//!     }
//! }
//! # Ok::<(), ndf::Error>(())
//! ```
//!
//! A program that is written for notify-debouncer-full finds its names here, and notify's in [`notify`]; what can't be
//! had, and what is otherwise, docs/PORTING.md of the repository lists. Whoever has a loop of their own takes
//! [`Core`], which has no thread and no clock. (docs/C.md says what is proved of it.)
//!
//! [`new_debouncer`] has inotify on Linux, and isn't there elsewhere; any other watcher implements [`Watcher`] and goes
//! under [`new_debouncer_opt`]. What a system's watcher reports is often doubled, late or wrong, so let [`look`] look where
//! it reports something: there is the impl for notify's watchers.

#![warn(missing_docs)]

mod cache;
mod config;
mod core;
mod debouncer;
mod error;
pub mod event;
pub mod file_id;
mod heap;
#[cfg(target_os = "linux")]
mod inotify;
pub mod look;
mod moves;
pub mod notify;
#[doc(hidden)]
pub mod raw;
mod watcher;

pub use crate::cache::{FileIdCache, FileIdMap, NoCache, RecommendedCache};
pub use crate::config::{Config, RecursiveMode};
pub use crate::core::{Core, Counts, Emitted, Entry};
#[cfg(target_os = "linux")]
pub use crate::debouncer::new_debouncer;
pub use crate::debouncer::{new_debouncer_opt, DebounceEventHandler, DebounceEventResult, DebouncedEvent, Debouncer};
pub use crate::error::{Error, ErrorKind, Result};
pub use crate::event::{
    AccessKind, AccessMode, CreateKind, DataChange, Event, EventAttributes, EventKind, Flag, MetadataKind, ModifyKind,
    RemoveKind, RenameMode,
};
#[cfg(target_os = "linux")]
pub use crate::inotify::INotifyWatcher;
pub use crate::watcher::{EventHandler, NullWatcher, Watcher, WatcherKind};

/// The watcher of [`new_debouncer`].
#[cfg(target_os = "linux")]
pub type RecommendedWatcher = INotifyWatcher;
