// A harness in place of the oracle's own, for scripts/answers.py: it carries out a script on the crate's debouncer over
// its FileIdMap, or calls of a FileIdMap, and prints what the numbers come to. Scripts are read by the oracle.

mod script;
mod words;

use crate::{time, DebounceDataInner, Debouncer, FileIdCache, FileIdMap, Queue};
use notify::{
    event::{Event, EventKind, ModifyKind, RenameMode},
    Error, ErrorKind, NullWatcher, RecursiveMode,
};
use script::{duration, Command};
use std::{
    cell::Cell,
    collections::HashMap,
    path::{Path, PathBuf},
    sync::{atomic::AtomicBool, Arc, Mutex},
    time::{Duration, Instant},
};
use walkdir::seen;

thread_local! {
    static EXISTS: Cell<bool> = const { Cell::new(false) };
}

/// What the crate's code asks in place of `Path::exists`.
pub fn path_exists(_path: &Path) -> bool {
    EXISTS.with(|exists| exists.get())
}

pub fn main() -> u8 {
    let name = std::env::args().nth(1).expect("a script");
    let text = std::fs::read_to_string(name).expect("a script");
    match text.split_once('\n').expect("two lines or more") {
        ("numbers", commands) => run(commands),
        ("calls", lines) => call(lines),
        _ => panic!("a line `numbers` or `calls`"),
    }
    for (root, depth) in seen::roots() {
        let mode = if depth == usize::MAX { "Recursive" } else { "NonRecursive" };
        println!("scan {mode} {}", words::path(&root));
    }
    0
}

fn print_numbers(map: &FileIdMap) {
    print!("numbers");
    for path in seen::PATHS {
        match map.cached_file_id(Path::new(path)).map(|id| *id.as_ref()) {
            Some(file_id::FileId::Inode { inode_number, .. }) => print!(" {inode_number}"),
            _ => print!(" -"),
        }
    }
    println!(" of {} scans {}", map.count(), seen::roots().len());
}

fn mode_of(word: &str) -> RecursiveMode {
    match word {
        "Recursive" => RecursiveMode::Recursive,
        "NonRecursive" => RecursiveMode::NonRecursive,
        _ => panic!("no mode: {word}"),
    }
}

fn path_of(word: &str) -> PathBuf {
    PathBuf::from(if word == "\"\"" { "" } else { word })
}

fn call(lines: &str) {
    let mut map = FileIdMap::new();
    for line in lines.lines() {
        match line.split(' ').collect::<Vec<_>>().as_slice() {
            ["add", mode, path] => map.add_path(&path_of(path), mode_of(mode)),
            ["remove", path] => map.remove_path(&path_of(path)),
            ["rescan", roots @ ..] => {
                let roots: Vec<_> = roots.chunks(2).map(|root| (path_of(root[1]), mode_of(root[0]))).collect();
                map.rescan(&roots);
            }
            _ => panic!("no call: {line}"),
        }
        print_numbers(&map);
    }
}

fn at(moment: u128) -> Instant {
    duration(moment).and_then(time::instant).expect("a moment of the clock")
}

/// Whether events of one last path are due in more than one queue, whose order hangs on the hashed map.
fn order_open(queues: &HashMap<PathBuf, Queue>, now: Instant, timeout: Duration) -> bool {
    let mut owners: HashMap<PathBuf, &PathBuf> = HashMap::new();
    for (key, queue) in queues {
        for event in &queue.events {
            if now.saturating_duration_since(event.time) < timeout {
                break;
            }
            let last = event.paths.last().cloned().unwrap_or_default();
            if *owners.entry(last).or_insert(key) != key {
                return true;
            }
        }
    }
    false
}

/// Whether the event may join a rename, while something waits strictly below its old or its new path.
fn folder_move(data: &DebounceDataInner<FileIdMap>, event: &Event, exists: bool) -> bool {
    let second_half = match event.kind {
        EventKind::Modify(ModifyKind::Name(RenameMode::To)) => true,
        EventKind::Modify(ModifyKind::Name(RenameMode::Any)) => exists,
        _ => false,
    };
    let (true, Some(to), Some((slot, _))) = (second_half, event.paths.first(), &data.rename_event) else {
        return false;
    };
    let from = &slot.paths[0];
    let is_below = |key: &PathBuf, path: &PathBuf| key.starts_with(path) && key != path;
    !from.starts_with(to) && !to.starts_with(from) && data.queues.keys().any(|key| is_below(key, from) || is_below(key, to))
}

fn run(commands: &str) {
    let script = script::parse(commands.as_bytes()).unwrap_or_else(|line| panic!("line {line} is no command"));
    let (mut open, mut moved, mut latest) = (false, false, 0);
    let data = DebounceDataInner::new(FileIdMap::new(), script.timeout);
    let data = Arc::new(Mutex::new(data));
    let mut debouncer = Debouncer {
        watcher: NullWatcher,
        debouncer_thread: None,
        data: data.clone(),
        stop: Arc::new(AtomicBool::new(false)),
    };
    for command in script.commands {
        match command {
            Command::Event { moment, event, exists } => {
                latest = moment.max(latest);
                time::set(at(latest));
                EXISTS.with(|now| now.set(exists));
                let mut data = data.lock().unwrap();
                moved |= folder_move(&data, &event, exists);
                data.add_event(event);
            }
            Command::Error(_) => data.lock().unwrap().add_error(Error::new(ErrorKind::PathNotFound)),
            Command::Root(mode, path) => debouncer.add_root(path, mode),
            Command::Unroot(path) => debouncer.remove_root(path),
            Command::Errors => println!("errors {}", data.lock().unwrap().errors().len()),
            Command::Tick(moment) => {
                latest = moment.max(latest);
                time::set(at(latest));
                let mut data = data.lock().unwrap();
                open |= order_open(&data.queues, at(latest), data.timeout);
                let batch = data.debounced_events();
                println!("batch {}", batch.len());
                for event in batch {
                    let time = event.time.duration_since(time::base()).as_nanos();
                    let paths: String = event.paths.iter().map(|path| format!(" {}", words::path(path))).collect();
                    println!("{time} {}{paths}", words::word(&event.kind));
                }
            }
        }
        print_numbers(&data.lock().unwrap().cache);
    }
    if moved {
        println!("\n# folder-move");
    }
    if open {
        println!("\n# order-open");
    }
}
