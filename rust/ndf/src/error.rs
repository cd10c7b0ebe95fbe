//! Errors, by the names of notify.
use crate::config::Config;
use std::fmt;
use std::io;
use std::path::PathBuf;
use std::sync::mpsc::{RecvError, SendError};
use std::sync::PoisonError;

/// What went wrong. The first six are notify's.
#[derive(Debug)]
pub enum ErrorKind {
    /// What the text says.
    Generic(String),
    /// The system refused something.
    Io(io::Error),
    /// Nothing stands at the path.
    PathNotFound,
    /// The path isn't watched.
    WatchNotFound,
    /// The watcher doesn't take this config.
    InvalidConfig(Config),
    /// The system watches no further folder for this user: on Linux see /proc/sys/fs/inotify/max_user_watches.
    MaxFilesWatch,
    /// 2^64 - 1 events were taken.
    Full,
    /// An allocation failed: the event is lost.
    Memory,
    /// A path isn't UTF-8, which the core doesn't take: the event is lost.
    NotText,
    /// The event has more than two paths: it is lost.
    TooManyPaths,
}

/// An error, with the paths that it is about.
#[derive(Debug)]
pub struct Error {
    /// What went wrong.
    pub kind: ErrorKind,
    /// Where it went wrong.
    pub paths: Vec<PathBuf>,
}

/// What a call of this crate answers.
pub type Result<T> = std::result::Result<T, Error>;

impl Error {
    /// An error of no path.
    pub fn new(kind: ErrorKind) -> Error {
        Error { kind, paths: Vec::new() }
    }

    /// An error that the text says.
    pub fn generic(text: &str) -> Error {
        Error::new(ErrorKind::Generic(text.to_string()))
    }

    /// An error of the system.
    pub fn io(error: io::Error) -> Error {
        Error::new(ErrorKind::Io(error))
    }

    /// Nothing stands at a path.
    pub fn path_not_found() -> Error {
        Error::new(ErrorKind::PathNotFound)
    }

    /// A path isn't watched.
    pub fn watch_not_found() -> Error {
        Error::new(ErrorKind::WatchNotFound)
    }

    /// A watcher doesn't take this config.
    pub fn invalid_config(config: &Config) -> Error {
        Error::new(ErrorKind::InvalidConfig(*config))
    }

    /// The error with a further path.
    pub fn add_path(mut self, path: PathBuf) -> Error {
        self.paths.push(path);
        self
    }

    /// The error with these paths.
    pub fn set_paths(mut self, paths: Vec<PathBuf>) -> Error {
        self.paths = paths;
        self
    }
}

impl fmt::Display for Error {
    fn fmt(&self, out: &mut fmt::Formatter<'_>) -> fmt::Result {
        match &self.kind {
            ErrorKind::Generic(text) => write!(out, "{text}")?,
            ErrorKind::Io(error) => write!(out, "{error}")?,
            ErrorKind::PathNotFound => write!(out, "nothing stands there:")?,
            ErrorKind::WatchNotFound => write!(out, "not watched:")?,
            ErrorKind::InvalidConfig(config) => write!(out, "not a config for this watcher: {config:?}")?,
            ErrorKind::MaxFilesWatch => write!(out, "the system watches no further folder:")?,
            ErrorKind::Full => write!(out, "2^64 - 1 events were taken")?,
            ErrorKind::Memory => write!(out, "an allocation failed")?,
            ErrorKind::NotText => write!(out, "a text isn't UTF-8:")?,
            ErrorKind::TooManyPaths => write!(out, "more than two paths:")?,
        }
        self.paths.iter().try_for_each(|path| write!(out, " {}", path.display()))
    }
}

impl std::error::Error for Error {
    fn source(&self) -> Option<&(dyn std::error::Error + 'static)> {
        match &self.kind {
            ErrorKind::Io(error) => Some(error),
            _ => None,
        }
    }
}

impl From<io::Error> for Error {
    fn from(error: io::Error) -> Error {
        Error::io(error)
    }
}

impl<T> From<SendError<T>> for Error {
    fn from(error: SendError<T>) -> Error {
        Error::generic(&error.to_string())
    }
}

impl From<RecvError> for Error {
    fn from(error: RecvError) -> Error {
        Error::generic(&error.to_string())
    }
}

impl<T> From<PoisonError<T>> for Error {
    fn from(error: PoisonError<T>) -> Error {
        Error::generic(&error.to_string())
    }
}
