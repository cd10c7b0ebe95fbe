//! A program for notify-debouncer-full 0.6, that uses each of its names, and notify's. It was written for that crate,
//! and then switched: each line that had to be another one ends with `// switched`, and there are at most ten.
#![cfg(target_os = "linux")]
mod common;

use ndf as notify_debouncer_full; // switched
use notify_debouncer_full::file_id::{get_file_id, FileId};
use notify_debouncer_full::notify::event::{
    AccessKind, AccessMode, CreateKind, DataChange, EventAttributes, Flag, MetadataKind, ModifyKind, RemoveKind,
    RenameMode,
};
use notify_debouncer_full::notify::{
    self, Config, Error, ErrorKind, Event, EventHandler, EventKind, INotifyWatcher, NullWatcher, RecommendedWatcher,
    RecursiveMode, Watcher, WatcherKind,
};
use notify_debouncer_full::{
    new_debouncer, new_debouncer_opt, DebounceEventHandler, DebounceEventResult, DebouncedEvent, Debouncer,
    FileIdCache, FileIdMap, NoCache, RecommendedCache,
};
use std::collections::HashSet;
use std::error::Error as _;
use std::fs;
use std::path::{Path, PathBuf};
use std::sync::{mpsc, Mutex, RwLock};
use std::time::{Duration, Instant};

/// Keeps a debouncer beside what it is for.
#[derive(Debug)]
struct Keeper {
    debouncer: Debouncer<RecommendedWatcher, RecommendedCache>,
    folder: PathBuf,
}

impl Keeper {
    /// Begins with the text of a file, so that an error of the system becomes one of notify.
    fn start<H: DebounceEventHandler>(folder: &Path, handler: H) -> notify::Result<(Keeper, String)> {
        let text = fs::read_to_string(folder.join("settings"))?;
        let mut debouncer = new_debouncer(Duration::from_millis(40), None, handler)?;
        debouncer.watch(folder, RecursiveMode::Recursive)?;
        Ok((Keeper { debouncer, folder: folder.to_path_buf() }, text))
    }

    fn end(mut self) -> notify::Result<()> {
        self.debouncer.unwatch(&self.folder)?;
        self.debouncer.stop();
        Ok(())
    }
}

/// What happened, in a word.
fn word(event: &DebouncedEvent) -> &'static str {
    match event.kind {
        EventKind::Access(AccessKind::Close(AccessMode::Write)) => "written",
        EventKind::Create(CreateKind::Folder) => "new folder",
        EventKind::Modify(ModifyKind::Data(DataChange::Any)) => "changed",
        EventKind::Modify(ModifyKind::Metadata(MetadataKind::Any)) => "touched",
        EventKind::Modify(ModifyKind::Name(RenameMode::Both)) => "renamed",
        EventKind::Remove(RemoveKind::Folder) => "no folder any longer",
        kind if kind.is_create() => "new",
        kind if kind.is_modify() => "modified",
        kind if kind.is_remove() => "gone",
        kind if kind.is_access() => "read",
        kind if kind.is_other() => "other",
        _ => "something",
    }
}

/// Why it went wrong, in a word.
fn reason(error: &Error) -> String {
    match &error.kind {
        ErrorKind::Generic(text) => text.clone(),
        ErrorKind::Io(error) => error.kind().to_string(),
        ErrorKind::PathNotFound => "no path".to_string(),
        ErrorKind::WatchNotFound => "no watch".to_string(),
        ErrorKind::InvalidConfig(config) => format!("{config:?}"),
        ErrorKind::MaxFilesWatch => "too many".to_string(),
        other => format!("{other:?}"), // switched
    }
}

/// A watcher of the program's own.
struct Once(Mutex<Box<dyn EventHandler>>);

impl Watcher for Once {
    fn new<F: EventHandler>(handler: F, _: Config) -> notify::Result<Self> {
        Ok(Once(Mutex::new(Box::new(handler))))
    }

    fn watch(&mut self, path: &Path, mode: RecursiveMode) -> notify::Result<()> {
        let info = if mode.is_recursive() { "deep" } else { "flat" };
        let event =
            Event::new(EventKind::Any).set_kind(EventKind::Create(CreateKind::File)).add_path(path.to_path_buf());
        let event = event.set_tracker(7).set_info(info).set_process_id(11).add_some_path(None);
        self.0.lock()?.handle_event(Ok(event));
        self.0.lock()?.handle_event(Ok(Event::new(EventKind::Other).set_flag(Flag::Rescan)));
        Ok(())
    }

    fn unwatch(&mut self, path: &Path) -> notify::Result<()> {
        Err(Error::watch_not_found().add_path(path.to_path_buf()))
    }

    fn configure(&mut self, config: Config) -> notify::Result<bool> {
        match config.poll_interval() {
            Some(_) => Ok(true),
            None => Err(Error::invalid_config(&config)),
        }
    }

    fn kind() -> WatcherKind {
        WatcherKind::PollWatcher
    }
}

/// A cache of the program's own.
struct Empty;

impl FileIdCache for Empty {
    fn cached_file_id(&self, _: &Path) -> Option<impl AsRef<FileId>> {
        None::<FileId>
    }

    fn add_path(&mut self, _: &Path, _: RecursiveMode) {}

    fn remove_path(&mut self, _: &Path) {}
}

#[test]
fn a_folder_is_kept() {
    let room = common::Room::new();
    assert!(Keeper::start(&room.0, |_: DebounceEventResult| {}).unwrap_err().source().is_some());
    fs::write(room.join("settings"), "text").unwrap();
    let (sender, results) = mpsc::channel();
    let (keeper, text) = Keeper::start(&room.0, sender).unwrap();
    assert_eq!(text, "text");
    assert!(format!("{keeper:?}").contains("Debouncer"));
    fs::create_dir(room.join("d")).unwrap();
    let events = results.recv_timeout(Duration::from_secs(10)).unwrap().unwrap();
    assert_eq!((word(&events[0]), events[0].paths[0].clone()), ("new folder", room.join("d")));
    keeper.end().unwrap();
}

#[test]
fn a_channel_of_another_crate_receives() {
    let room = common::Room::new();
    // As those of crossbeam and flume.
    let (sender, results) = mpsc::sync_channel(8);
    let handler = move |result: DebounceEventResult| drop(sender.send(result)); // switched
    let mut debouncer = new_debouncer_opt::<_, INotifyWatcher, NoCache>(
        Duration::from_millis(40),
        Some(Duration::from_millis(10)),
        handler,
        NoCache::new(),
        Config::default().with_poll_interval(Duration::from_secs(1)).with_compare_contents(true),
    )
    .unwrap();
    debouncer.watch(&room.0, RecursiveMode::NonRecursive).unwrap();
    fs::write(room.join("a"), "").unwrap();
    assert_eq!(word(&results.recv_timeout(Duration::from_secs(10)).unwrap().unwrap()[0]), "new");
    debouncer.stop_nonblocking();
}

#[test]
fn a_watcher_and_caches_of_ones_own() {
    let (sender, results) = mpsc::channel();
    let timeout = Duration::from_millis(1);
    let mut debouncer = new_debouncer_opt::<_, Once, _>(timeout, None, sender, Empty, Config::default()).unwrap();
    assert_eq!(Debouncer::<Once, FileIdMap>::kind(), WatcherKind::PollWatcher);
    assert!(debouncer.configure(Config::default()).unwrap());
    let error = debouncer.configure(Config::default().with_manual_polling()).unwrap_err();
    assert!(reason(&error).contains("Config"));
    debouncer.watch("/w/a", RecursiveMode::Recursive).unwrap();
    let mut told = Vec::new();
    while told.len() < 2 {
        told.extend(results.recv_timeout(Duration::from_secs(10)).unwrap().unwrap());
    }
    let event = told.iter().find(|event| !event.need_rescan()).unwrap();
    assert_eq!((event.tracker(), event.info(), event.source(), event.flag()), (Some(7), Some("deep"), None, None));
    assert_eq!((event.attrs.tracker(), event.attrs.process_id()), (Some(7), Some(11)));
    assert_eq!(reason(&debouncer.unwatch("/w/a").unwrap_err()), "no watch");
    assert_eq!(NullWatcher::kind(), WatcherKind::NullWatcher);
}

#[test]
fn events_are_values() {
    let mut attributes = EventAttributes::new();
    attributes.set_tracker(1);
    attributes.set_flag(Flag::Rescan);
    let event = Event { attrs: attributes, ..Event::default() };
    assert!(event.need_rescan() && event.kind == EventKind::Any);
    let now = Instant::now();
    let events: HashSet<_> = (0..2).map(|_| DebouncedEvent::new(event.clone(), now)).collect();
    assert_eq!(events.len(), 1);
}

#[test]
fn errors_come_of_other_errors() {
    fn fails(work: impl FnOnce() -> notify::Result<()>) -> String {
        reason(&work().unwrap_err())
    }
    assert_eq!(fails(|| Err(fs::read("/nowhere").unwrap_err())?), "entity not found");
    let (sender, receiver) = mpsc::channel::<()>();
    drop(sender);
    assert_eq!(fails(|| Ok(receiver.recv()?)), "receiving on a closed channel");
    let (sender, receiver) = mpsc::channel::<()>();
    drop(receiver);
    assert_eq!(fails(|| Ok(sender.send(())?)), "sending on a closed channel");
    assert_eq!(fails(|| Err(Error::path_not_found().set_paths(vec![PathBuf::from("/a")]))), "no path");
    assert_eq!(fails(|| Err(Error::new(ErrorKind::MaxFilesWatch))), "too many");
    let lock = RwLock::new(());
    assert!(lock.read().map_err(Error::from).is_ok());
    assert!(get_file_id("/nowhere").is_err());
}

#[test]
fn few_lines_were_switched() {
    let switched = include_str!("switched.rs").lines().filter(|line| line.ends_with("// switched")).count();
    assert!(switched <= 10, "{switched} lines");
}
