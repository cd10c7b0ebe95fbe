//! watch [--timeout MS] [--seconds N] [--until-eof] [--renames] FOLDER: prints each change below a folder, as c/watch.c does.
#![cfg_attr(not(target_os = "linux"), allow(unused))]
use ndf::{Config, DebounceEventResult, DebouncedEvent, Debouncer, Error, NoCache, RecursiveMode};
use std::io::{self, Write};
use std::path::{Path, PathBuf};
use std::time::Duration;
use std::{env, process, thread};

/// A path with a backslash before each character that a line can't have.
fn escaped(path: &str) -> String {
    path.replace('\\', "\\\\").replace('\t', "\\t").replace('\n', "\\n").replace('\r', "\\r")
}

/// Prints the events, their paths from the folder `above`.
fn print(events: &[DebouncedEvent], above: &Path) -> io::Result<()> {
    let mut out = io::stdout().lock();
    for event in events {
        write!(out, "{}", word_of(event))?;
        for path in &event.paths {
            let path = path.strip_prefix(above).unwrap_or(path);
            write!(out, "\t{}", escaped(&path.to_string_lossy()))?;
        }
        writeln!(out)?;
    }
    out.flush()
}

/// The kind as one word.
fn word_of(event: &DebouncedEvent) -> String {
    format!("{:?}", event.kind)
}

fn usage() -> ! {
    eprintln!("usage: watch [--timeout MS] [--seconds N] [--until-eof] [--renames] FOLDER");
    process::exit(2)
}

#[cfg(not(target_os = "linux"))]
fn main() {
    eprintln!("watch: there is no watcher for this system");
    process::exit(5)
}

#[cfg(target_os = "linux")]
fn main() -> Result<(), Error> {
    let (mut timeout, mut seconds, mut until_eof, mut renames, mut folder) = (500, u64::MAX, false, false, None);
    let mut words = env::args().skip(1);
    let number = |word: Option<String>| word.and_then(|word| word.parse().ok()).unwrap_or_else(|| usage());
    while let Some(word) = words.next() {
        match word.as_str() {
            "--timeout" => timeout = number(words.next()),
            "--seconds" => seconds = number(words.next()),
            "--until-eof" => until_eof = true,
            "--renames" => renames = true,
            _ if word.starts_with('-') || folder.is_some() => usage(),
            _ => folder = Some(word),
        }
    }
    let folder = folder.unwrap_or_else(|| usage());
    let config = Config::default().with_joined_renames(renames);
    // A relative folder is told as one.
    let above = if Path::new(&folder).is_relative() { env::current_dir()? } else { PathBuf::new() };
    let above_all = above.clone();
    let handler = move |result: DebounceEventResult| match result {
        Ok(events) => print(&events, &above_all).unwrap_or_else(|_| process::exit(6)),
        Err(errors) => errors.iter().for_each(|error| eprintln!("watch: {error}")),
    };
    let timeout = Duration::from_millis(timeout);
    let mut debouncer: Debouncer<ndf::INotifyWatcher> =
        ndf::new_debouncer_opt(timeout, None, handler, NoCache::new(), config)?;
    debouncer.watch(&folder, RecursiveMode::Recursive)?;
    eprintln!("watch: watching {folder}");
    if until_eof {
        io::copy(&mut io::stdin(), &mut io::sink())?;
    } else {
        thread::sleep(Duration::from_secs(seconds));
    }
    Ok(print(&debouncer.finish(), &above)?)
}
