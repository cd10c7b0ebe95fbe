//! What is fed to a core comes out, and what it refuses is an error.
use ndf::{
    Core, CreateKind, DataChange, Entry, Error, ErrorKind, Event, EventKind, Flag, ModifyKind, RecursiveMode,
    RenameMode,
};
use std::path::Path;

const WRITTEN: EventKind = EventKind::Modify(ModifyKind::Data(DataChange::Any));

#[test]
fn an_event_comes_out_with_all_it_has() {
    let mut core = Core::new(50).unwrap();
    let event = Event::new(WRITTEN).add_path("/w/a".into()).add_path("/w/b".into()).set_tracker(7);
    let event = event.set_info(&"i".repeat(2000)).set_source("source").set_process_id(11);
    core.add_event(&event, 10, true).unwrap();
    core.add_event(&Event::new(EventKind::Other).set_flag(Flag::Rescan), 10, false).unwrap();
    assert!(core.tick(59).unwrap().is_empty());
    let batch = core.tick(60).unwrap();
    assert!(batch[0].event.need_rescan());
    assert_eq!((&batch[1].event, batch[1].time), (&event, 10));
    assert_eq!(core.counts().unwrap().given, 2);
}

#[test]
fn halves_are_joined_and_what_waits_is_seen() {
    let mut core = Core::new(50).unwrap();
    let half =
        |mode, path: &str| Event::new(EventKind::Modify(ModifyKind::Name(mode))).add_path(path.into()).set_tracker(1);
    core.add_event(&half(RenameMode::From, "/w/a"), 0, false).unwrap();
    core.add_event(&half(RenameMode::To, "/w/b"), 1, true).unwrap();
    let waiting = core.outlook().unwrap();
    assert_eq!(waiting.len(), 1);
    assert_eq!(waiting[0].event.kind, EventKind::Modify(ModifyKind::Name(RenameMode::Both)));
    assert_eq!(core.counts().unwrap().waiting, 1);
}

#[test]
fn halves_are_joined_by_the_number_of_their_file() {
    let mut core = Core::new(50).unwrap();
    let half = |mode, path: &str| Event::new(EventKind::Modify(ModifyKind::Name(mode))).add_path(path.into());
    core.set_number(Path::new("/w/a"), 1, 7).unwrap();
    core.set_number(Path::new("/w/a/1"), 1, 8).unwrap();
    core.add_event(&half(RenameMode::From, "/w/a"), 0, false).unwrap();
    assert_eq!(core.number_of(Path::new("/w/a/1")).unwrap(), None);
    core.set_number(Path::new("/w/b"), 1, 7).unwrap();
    core.add_event(&half(RenameMode::To, "/w/b"), 1, true).unwrap();
    assert_eq!(core.number_of(Path::new("/w/b")).unwrap(), Some((1, 7)));
    let waiting = core.outlook().unwrap();
    assert_eq!(waiting.len(), 1);
    assert_eq!(waiting[0].event.paths, [Path::new("/w/a"), Path::new("/w/b")]);
    core.forget(Path::new("/w")).unwrap();
    assert_eq!(core.counts().unwrap().numbers, 0);
}

#[test]
fn roots_have_modes_and_errors_wait() {
    let mut core = Core::new(50).unwrap();
    core.watch(Path::new("/w"), RecursiveMode::Recursive).unwrap();
    assert_eq!(core.recursive_mode(Path::new("/w/x")).unwrap(), RecursiveMode::Recursive);
    core.unwatch(Path::new("/w")).unwrap();
    assert_eq!(core.recursive_mode(Path::new("/w/x")).unwrap(), RecursiveMode::NonRecursive);
    core.add_error(&Error::generic("text").add_path("/w".into())).unwrap();
    let errors = core.errors().unwrap();
    assert_eq!(errors.len(), 1);
    assert_eq!(errors[0].to_string(), "text /w");
    assert!(core.errors().unwrap().is_empty());
}

#[test]
fn a_journal_has_what_was_done() {
    let mut core = Core::new(50).unwrap();
    core.watch(Path::new("/v"), RecursiveMode::Recursive).unwrap();
    core.keep_journal(true).unwrap();
    core.watch(Path::new("/w"), RecursiveMode::Recursive).unwrap();
    core.set_number(Path::new("/w/a"), 1, 7).unwrap();
    let event = Event::new(EventKind::Modify(ModifyKind::Name(RenameMode::From))).add_path("/w/a".into());
    let event = event.set_info(&"i".repeat(2000));
    core.add_event(&event, 10, false).unwrap();
    core.add_error(&Error::generic("text").add_path("/w".into())).unwrap();
    let batch = core.tick(60).unwrap();
    assert_eq!(batch.len(), 1);
    core.errors().unwrap();
    core.unwatch(Path::new("/w")).unwrap();
    let journal = core.journal().unwrap();
    assert_eq!(journal.len(), 6);
    assert!(matches!(&journal[0], Entry::Watched(path, RecursiveMode::Recursive) if path == Path::new("/w")));
    assert!(matches!(&journal[1], Entry::Taken { event: taken, moment: 10, exists: false, number: Some((1, 7)) }
        if *taken == event));
    assert!(matches!(&journal[2], Entry::Noted(error) if error.to_string() == "text /w"));
    assert!(matches!(&journal[3], Entry::Ticked(60, emitted) if *emitted == batch));
    assert!(matches!(&journal[4], Entry::Errors(errors) if errors.len() == 1));
    assert!(matches!(&journal[5], Entry::Unwatched(path) if path == Path::new("/w")));
    core.keep_journal(false).unwrap();
    assert!(core.journal().unwrap().is_empty());
}

#[cfg(unix)]
#[test]
fn a_path_that_is_not_a_text_is_refused() {
    use std::ffi::OsStr;
    use std::os::unix::ffi::OsStrExt;
    let mut core = Core::new(50).unwrap();
    let event = Event::new(EventKind::Create(CreateKind::File)).add_path(OsStr::from_bytes(b"/\xff").into());
    assert!(matches!(core.add_event(&event, 0, true), Err(Error { kind: ErrorKind::NotText, .. })));
    let three = Event::new(WRITTEN).add_path("a".into()).add_path("b".into()).add_path("c".into());
    assert!(matches!(core.add_event(&three, 0, true), Err(Error { kind: ErrorKind::TooManyPaths, .. })));
}
