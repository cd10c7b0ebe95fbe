// The workloads of crates/bench over the Rust crate's own code, of which this is a child module. Events
// are made before the clock starts, and what is emitted is summed up and dropped after it stops.

use crate::{sort_events, time, DebounceDataInner, DebouncedEvent, NoCache};
use notify::event::{CreateKind, DataChange, Event, EventKind, ModifyKind, RemoveKind, RenameMode};
use std::{
    hint::black_box,
    path::{Path, PathBuf},
    time::{Duration, Instant},
};

const KINDS: [&str; 6] = ["create", "modify", "idle", "rename", "rmdir", "sort"];
const TIMEOUT: u64 = 50_000;

/// What a workload took, over how many operations, and the sum over what was emitted, or of idle how many
/// events wait; rmdir has none, since the crate has no outlook.
type Figures = (Duration, usize, Option<u64>);

fn at(nanos: u64) -> Instant {
    time::instant(nanos)
}

fn state(timeout: u64) -> DebounceDataInner<NoCache> {
    DebounceDataInner::new(NoCache::new(), Duration::from_nanos(timeout))
}

/// The sum that crates/bench/src/checksum.rs defines, over all that was emitted.
fn checksum_of(batches: &[Vec<DebouncedEvent>]) -> u64 {
    let mut sum = 0u64;
    for (i, event) in batches.iter().flatten().enumerate() {
        sum = sum.wrapping_add((i as u64 + 1).wrapping_mul(value_of(event)));
    }
    sum
}

fn value_of(event: &DebouncedEvent) -> u64 {
    let time = time::moment(event.time);
    match event.paths.last() {
        Some(path) => time.wrapping_add(number_of(path.as_os_str().as_encoded_bytes())),
        None => time,
    }
}

fn number_of(text: &[u8]) -> u64 {
    text.iter().fold(0, |number, &byte| {
        number.wrapping_mul(31).wrapping_add(u64::from(byte))
    })
}

fn file(i: usize) -> PathBuf {
    PathBuf::from(format!("/d{}/f{i}", i % 1000))
}

fn creations(n: usize) -> Vec<Event> {
    (0..n)
        .map(|i| Event::new(EventKind::Create(CreateKind::File)).add_path(file(i)))
        .collect()
}

/// Event i comes at moment i; one tick after all are expired. An operation is an event.
fn create(n: usize) -> Figures {
    let events = creations(n);
    let mut data = state(TIMEOUT);
    let begin = Instant::now();
    for (i, event) in events.into_iter().enumerate() {
        time::set(at(i as u64));
        data.add_event(event);
    }
    time::set(at(n as u64 + TIMEOUT));
    let batch = data.debounced_events();
    let total = begin.elapsed();
    assert_eq!(batch.len(), n);
    (total, n, Some(checksum_of(&[batch])))
}

/// Event i comes at moment 10 i on path /m{i % 1000}; after every 1000 events a tick at the moment
/// of the last one. So from the 5000th event on about 5000 wait. An operation is an event.
fn modify(n: usize) -> Figures {
    let events: Vec<Event> = (0..n)
        .map(|i| {
            Event::new(EventKind::Modify(ModifyKind::Data(DataChange::Any)))
                .add_path(PathBuf::from(format!("/m{}", i % 1000)))
        })
        .collect();
    let mut data = state(TIMEOUT);
    let mut batches = Vec::with_capacity(n / 1000 + 1);
    let begin = Instant::now();
    for (i, event) in events.into_iter().enumerate() {
        time::set(at(10 * i as u64));
        data.add_event(event);
        if i % 1000 == 999 {
            batches.push(data.debounced_events());
        }
    }
    let total = begin.elapsed();
    (total, n, Some(checksum_of(&batches)))
}

/// N queues of one creation each, all at moment 0; then 1000 ticks at moments 0 to 999. Only the
/// ticks are measured, and an operation is a tick.
fn idle(n: usize) -> Figures {
    let mut data = state(TIMEOUT);
    time::set(at(0));
    for event in creations(n) {
        data.add_event(event);
    }
    let begin = Instant::now();
    for tick in 0..1000 {
        time::set(at(tick));
        let batch = data.debounced_events();
        assert!(batch.is_empty());
        black_box(batch);
    }
    let total = begin.elapsed();
    assert_eq!(data.queues.len(), n);
    let waiting: usize = data.queues.values().map(|queue| queue.events.len()).sum();
    (total, 1000, Some(waiting as u64))
}

/// Pair i: From /d{i % 1000}/a{i} at 2 i, To /d{i % 1000}/b{i} at 2 i + 1, both with tracker i; one
/// tick after all are expired. An operation is a pair.
fn rename(n: usize) -> Figures {
    let name = |mode, letter: char, i: usize| {
        Event::new(EventKind::Modify(ModifyKind::Name(mode)))
            .add_path(PathBuf::from(format!("/d{}/{letter}{i}", i % 1000)))
            .set_tracker(i)
    };
    let events: Vec<Event> = (0..n)
        .flat_map(|i| [name(RenameMode::From, 'a', i), name(RenameMode::To, 'b', i)])
        .collect();
    let mut data = state(TIMEOUT);
    let begin = Instant::now();
    for (i, event) in events.into_iter().enumerate() {
        time::set(at(i as u64));
        data.add_event(event);
    }
    time::set(at(2 * n as u64 + TIMEOUT));
    let batch = data.debounced_events();
    let total = begin.elapsed();
    assert_eq!(batch.len(), n);
    (total, n, Some(checksum_of(&[batch])))
}

/// N queues of one creation each in 1000 folders; then Remove(Folder) of each folder. Only the
/// removals are measured, and an operation is a removal.
fn rmdir(n: usize) -> Figures {
    let mut data = state(TIMEOUT);
    for (i, event) in creations(n).into_iter().enumerate() {
        time::set(at(i as u64));
        data.add_event(event);
    }
    let removals: Vec<Event> = (0..1000)
        .map(|k| {
            Event::new(EventKind::Remove(RemoveKind::Folder))
                .add_path(PathBuf::from(format!("/d{k}")))
        })
        .collect();
    time::set(at(n as u64));
    let begin = Instant::now();
    for event in removals {
        data.add_event(event);
    }
    let total = begin.elapsed();
    assert_eq!(data.queues.len(), 1000);
    (total, 1000, None)
}

/// N events on paths /s{i % (N / 10)}, the time of event i being the next value of the generator
/// x -> 6364136223846793005 x + 1442695040888963407 (mod 2^64, from x = 1), its upper 32 bits,
/// mod N. An operation is an event.
fn sort(n: usize) -> Figures {
    let paths = (n / 10).max(1);
    let mut x = 1u64;
    let events: Vec<DebouncedEvent> = (0..n)
        .map(|i| {
            x = x
                .wrapping_mul(6364136223846793005)
                .wrapping_add(1442695040888963407);
            let event = Event::new(EventKind::Modify(ModifyKind::Data(DataChange::Any)))
                .add_path(PathBuf::from(format!("/s{}", i % paths)));
            DebouncedEvent::new(event, at((x >> 32) % n as u64))
        })
        .collect();
    let begin = Instant::now();
    let sorted = sort_events(events);
    let total = begin.elapsed();
    assert_eq!(sorted.len(), n);
    (total, n, Some(checksum_of(&[sorted])))
}

/// What the crate's code asks in place of `Path::exists`.
pub fn path_exists(_path: &Path) -> bool {
    false
}

pub fn main() {
    let words: Vec<String> = std::env::args().skip(1).collect();
    let (n, kind) = match words.as_slice() {
        [n, kind] if KINDS.contains(&kind.as_str()) => (n.parse().unwrap_or(0), kind.as_str()),
        _ => (0, ""),
    };
    if n == 0 {
        eprintln!("usage: rust_crate N KIND; KIND is one of {}", KINDS.join(", "));
        std::process::exit(2);
    }
    let (total, operations, checksum) = match kind {
        "create" => create(n),
        "modify" => modify(n),
        "idle" => idle(n),
        "rename" => rename(n),
        "rmdir" => rmdir(n),
        _ => sort(n),
    };
    let total = total.as_nanos();
    if let Some(checksum) = checksum {
        println!("{kind} {n} {checksum}");
    }
    eprintln!("{kind} {n} {total} {:.1}", total as f64 / operations as f64);
}
