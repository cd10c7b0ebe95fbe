//! What a watcher is told: whether what lies below a path is meant, and how to look.
use std::time::Duration;

/// Whether what is below a path is meant too.
#[derive(Clone, Copy, Debug, PartialEq, Eq, Hash)]
pub enum RecursiveMode {
    /// The path with all that is below it.
    Recursive,
    /// The path, and what lies directly in it.
    NonRecursive,
}

impl RecursiveMode {
    /// Whether it is [`RecursiveMode::Recursive`].
    pub fn is_recursive(&self) -> bool {
        *self == RecursiveMode::Recursive
    }
}

/// What a watcher is told at its start. The settings of notify's are there for watchers that have a use for them; the
/// watcher over inotify reads none.
#[derive(Clone, Copy, Debug, PartialEq, Eq, Hash)]
pub struct Config {
    poll_interval: Option<Duration>,
    compare_contents: bool,
    follow_symlinks: bool,
    joins_renames: bool,
}

impl Default for Config {
    fn default() -> Config {
        Config {
            poll_interval: Some(Duration::from_secs(30)),
            compare_contents: false,
            follow_symlinks: true,
            joins_renames: false,
        }
    }
}

impl Config {
    /// The config in which a watcher that polls looks so often.
    pub fn with_poll_interval(self, interval: Duration) -> Config {
        Config { poll_interval: Some(interval), ..self }
    }

    /// How often a watcher that polls looks; none if it looks only when it is asked.
    pub fn poll_interval(&self) -> Option<Duration> {
        self.poll_interval
    }

    /// The config in which a watcher that polls looks only when it is asked.
    pub fn with_manual_polling(self) -> Config {
        Config { poll_interval: None, ..self }
    }

    /// The config in which a watcher that polls reads files, or doesn't.
    pub fn with_compare_contents(self, compares: bool) -> Config {
        Config { compare_contents: compares, ..self }
    }

    /// Whether a watcher that polls reads files.
    pub fn compare_contents(&self) -> bool {
        self.compare_contents
    }

    /// The config in which links to folders below a watched path are followed, or aren't. The watcher over inotify
    /// never follows them; it follows a link that it is asked to watch.
    pub fn with_follow_symlinks(self, follows: bool) -> Config {
        Config { follow_symlinks: follows, ..self }
    }

    /// Whether links to folders below a watched path are followed.
    pub fn follow_symlinks(&self) -> bool {
        self.follow_symlinks
    }

    /// The config in which the debouncer tells each move that it finds in a batch, a removal and a creation of one tracker,
    /// as `Modify(Name(Both))`: that of a file is the only event; that of a folder stands behind its removal, and what lies
    /// in it is told as created. This setting is this crate's own.
    pub fn with_joined_renames(self, joins: bool) -> Config {
        Config { joins_renames: joins, ..self }
    }

    /// Whether moves are told as such.
    pub fn joined_renames(&self) -> bool {
        self.joins_renames
    }
}
