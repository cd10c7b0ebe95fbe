//! The running debouncer. One thread has the core, which the watcher sends its events to, and a second one calls the
//! handler: while it works, events go on being merged, and nothing is emitted.
use crate::cache::{FileIdCache, RecommendedCache};
use crate::config::{Config, RecursiveMode};
use crate::core::{Core, Emitted};
use crate::error::{Error, ErrorKind, Result};
use crate::event::{Event, EventKind, ModifyKind, RenameMode};
use crate::moves::join_moves;
use crate::watcher::{absolute, EventHandler, Watcher, WatcherKind};
use std::fmt;
use std::marker::PhantomData;
use std::mem;
use std::ops::{Deref, DerefMut};
use std::path::{Path, PathBuf};
use std::sync::atomic::{AtomicBool, Ordering};
use std::sync::mpsc::{self, Receiver, RecvTimeoutError, Sender, SyncSender};
use std::sync::Arc;
use std::thread::{self, JoinHandle};
use std::time::{Duration, Instant};

/// How many events wait for the core's thread at most: a faster watcher waits too, and its system says what it lost.
const ROOM: usize = 4096;
/// How long a watcher that was dropped has to hand on its last events, and to let go of its handler.
const LAST_EVENTS: Duration = Duration::from_secs(1);

/// An event that was emitted, with the moment at which it was taken.
#[derive(Clone, Debug, PartialEq, Eq, Hash)]
pub struct DebouncedEvent {
    /// The event.
    pub event: Event,
    /// When it was taken.
    pub time: Instant,
}

impl DebouncedEvent {
    /// An event that was taken at this moment.
    pub fn new(event: Event, time: Instant) -> DebouncedEvent {
        DebouncedEvent { event, time }
    }
}

impl Deref for DebouncedEvent {
    type Target = Event;

    fn deref(&self) -> &Event {
        &self.event
    }
}

impl DerefMut for DebouncedEvent {
    fn deref_mut(&mut self) -> &mut Event {
        &mut self.event
    }
}

/// What a handler is given: a batch, or errors.
pub type DebounceEventResult = std::result::Result<Vec<DebouncedEvent>, Vec<Error>>;

/// What the batches are given to. A channel of another crate is wrapped in a closure, since neither it nor this trait
/// would be of the crate that says how they go together: `move |result| { let _ = sender.send(result); }`.
pub trait DebounceEventHandler: Send + 'static {
    /// Takes a batch, which isn't empty, or errors.
    fn handle_event(&mut self, result: DebounceEventResult);
}

impl<F: FnMut(DebounceEventResult) + Send + 'static> DebounceEventHandler for F {
    fn handle_event(&mut self, result: DebounceEventResult) {
        self(result);
    }
}

impl DebounceEventHandler for Sender<DebounceEventResult> {
    fn handle_event(&mut self, result: DebounceEventResult) {
        let _ = self.send(result);
    }
}

/// What the core's thread is told.
enum Message {
    Event { event: Event, exists: bool, time: Instant },
    Error(Error),
    Watch(PathBuf, RecursiveMode),
    Unwatch(PathBuf),
    Stop,
}

/// A debouncer that runs until it is stopped or dropped. Dropping it tells it to stop, and waits for nothing, so that
/// a handler may drop it too.
pub struct Debouncer<T: Watcher, C: FileIdCache = RecommendedCache> {
    watcher: Option<T>,
    sender: Option<SyncSender<Message>>,
    core: Option<JoinHandle<Vec<DebouncedEvent>>>,
    handler: Option<JoinHandle<()>>,
    cache: PhantomData<fn() -> C>,
}

impl<T: Watcher + fmt::Debug, C: FileIdCache> fmt::Debug for Debouncer<T, C> {
    fn fmt(&self, out: &mut fmt::Formatter<'_>) -> fmt::Result {
        out.debug_struct("Debouncer").field("watcher", &self.watcher).finish_non_exhaustive()
    }
}

/// Starts a debouncer over the watcher for this system. Each event is emitted once it is as old as the timeout; the
/// handler is called at most each `tick_rate`, or each quarter of the timeout.
#[cfg(target_os = "linux")]
pub fn new_debouncer<F: DebounceEventHandler>(
    timeout: Duration,
    tick_rate: Option<Duration>,
    handler: F,
) -> Result<Debouncer<crate::RecommendedWatcher, RecommendedCache>> {
    new_debouncer_opt(timeout, tick_rate, handler, RecommendedCache::new(), Config::default())
}

/// Starts a debouncer over a watcher, with a cache of file numbers. A `tick_rate` above the timeout is refused.
pub fn new_debouncer_opt<F: DebounceEventHandler, T: Watcher, C: FileIdCache + Send + 'static>(
    timeout: Duration,
    tick_rate: Option<Duration>,
    handler: F,
    cache: C,
    config: Config,
) -> Result<Debouncer<T, C>> {
    let tick = match tick_rate {
        Some(rate) if rate > timeout => return Err(Error::generic("the tick rate is above the timeout")),
        Some(rate) => rate,
        None => timeout / 4,
    };
    let timeout = u64::try_from(timeout.as_nanos()).map_err(|_| Error::generic("the timeout is too long"))?;
    let (sender, receiver) = mpsc::sync_channel(ROOM);
    let (turns, handed) = mpsc::channel();
    let is_idle = Arc::new(AtomicBool::new(true));
    let handler = start("ndf handler", {
        let is_idle = Arc::clone(&is_idle);
        move || call(handler, &handed, &is_idle)
    })?;
    let (ready, is_ready) = mpsc::channel();
    // The core stays on this thread, from its beginning to its end.
    let core = start("ndf", move || match Core::new(timeout) {
        Ok(core) => {
            let _ = ready.send(Ok(()));
            let (begin, roots, errors, joins_moves) = (Instant::now(), Vec::new(), Vec::new(), config.joined_renames());
            Work { core, begin, cache, roots, errors, joins_moves, turns, is_idle }
                .go(tick.max(Duration::from_millis(1)), &receiver)
        }
        Err(error) => {
            let _ = ready.send(Err(error));
            Vec::new()
        }
    })?;
    is_ready.recv()??;
    let mut debouncer = Debouncer {
        watcher: None,
        sender: Some(sender.clone()),
        core: Some(core),
        handler: Some(handler),
        cache: PhantomData,
    };
    debouncer.watcher = Some(T::new(Feed(sender), config)?);
    Ok(debouncer)
}

fn start<R: Send + 'static>(name: &str, work: impl FnOnce() -> R + Send + 'static) -> Result<JoinHandle<R>> {
    Ok(thread::Builder::new().name(name.to_string()).spawn(work)?)
}

/// Hands the events of the watcher on.
struct Feed(SyncSender<Message>);

impl EventHandler for Feed {
    fn handle_event(&mut self, event: Result<Event>) {
        self.handle_events(vec![event]);
    }

    /// What one look told is a nanosecond apart, so that both events of a move are in one batch.
    fn handle_events(&mut self, events: Vec<Result<Event>>) {
        let mut time = Instant::now();
        for event in events {
            let _ = self.0.send(message_of(event, time));
            time += Duration::from_nanos(1);
        }
    }
}

/// Whether the event's path exists is asked at once, if it matters.
fn message_of(event: Result<Event>, time: Instant) -> Message {
    match event {
        Ok(event) => {
            let asks = event.kind == EventKind::Modify(ModifyKind::Name(RenameMode::Any));
            let exists = asks && event.paths.first().is_some_and(|path| path.symlink_metadata().is_ok());
            Message::Event { event, exists, time }
        }
        Err(error) => Message::Error(error),
    }
}

/// Calls the handler, until the core's thread has ended.
fn call(mut handler: impl DebounceEventHandler, handed: &Receiver<Turn>, is_idle: &AtomicBool) {
    while let Ok(turn) = handed.recv() {
        if !turn.batch.is_empty() {
            handler.handle_event(Ok(turn.batch));
        }
        if !turn.errors.is_empty() {
            handler.handle_event(Err(turn.errors));
        }
        is_idle.store(true, Ordering::Release);
    }
}

/// What the handler is given at a tick: the batch, and then the errors.
struct Turn {
    batch: Vec<DebouncedEvent>,
    errors: Vec<Error>,
}

impl<T: Watcher, C: FileIdCache> Debouncer<T, C> {
    /// Watches a path from now on. A relative one is meant from what is now the current folder, and its events have
    /// the whole path.
    pub fn watch(&mut self, path: impl AsRef<Path>, mode: RecursiveMode) -> Result<()> {
        let path = absolute(path.as_ref())?;
        self.watcher().watch(&path, mode)?;
        self.send(Message::Watch(path, mode));
        Ok(())
    }

    /// Watches a path no longer.
    pub fn unwatch(&mut self, path: impl AsRef<Path>) -> Result<()> {
        let path = absolute(path.as_ref())?;
        self.watcher().unwatch(&path)?;
        self.send(Message::Unwatch(path));
        Ok(())
    }

    /// Changes what the watcher was told, and answers whether it did.
    pub fn configure(&mut self, config: Config) -> Result<bool> {
        self.watcher().configure(config)
    }

    /// Which watcher is below.
    pub fn kind() -> WatcherKind {
        T::kind()
    }

    fn watcher(&mut self) -> &mut T {
        self.watcher.as_mut().expect("a debouncer has its watcher until it ends")
    }

    fn send(&self, message: Message) {
        if let Some(sender) = &self.sender {
            let _ = sender.send(message);
        }
    }

    /// Stops the debouncer, and waits until the handler has returned, if it isn't the handler that stops it. What waits
    /// is dropped.
    pub fn stop(self) {
        self.finish();
    }

    /// Tells the debouncer to stop, and waits for nothing.
    pub fn stop_nonblocking(self) {}

    /// Stops the debouncer as `stop` does, and returns what waits, which was never given to the handler.
    pub fn finish(mut self) -> Vec<DebouncedEvent> {
        self.end();
        let waiting = self.core.take().and_then(|core| core.join().ok()).unwrap_or_default();
        let handler = self.handler.take().filter(|handler| handler.thread().id() != thread::current().id());
        let _ = handler.map(JoinHandle::join);
        waiting
    }

    /// The watcher ends first, so that what it has reported by then is taken.
    fn end(&mut self) {
        self.watcher = None;
        self.send(Message::Stop);
        self.sender = None;
    }
}

impl<T: Watcher, C: FileIdCache> Drop for Debouncer<T, C> {
    fn drop(&mut self) {
        self.end();
    }
}

/// What the core's thread has.
struct Work<C> {
    core: Core,
    begin: Instant,
    cache: C,
    /// The watched paths, which the cache is told of when events were lost.
    roots: Vec<(PathBuf, RecursiveMode)>,
    /// Errors that the core doesn't keep: of the watcher, of paths that aren't UTF-8, of events that were refused.
    errors: Vec<Error>,
    /// Whether moves are told as such.
    joins_moves: bool,
    turns: Sender<Turn>,
    /// Whether the handler has returned.
    is_idle: Arc<AtomicBool>,
}

impl<C: FileIdCache> Work<C> {
    fn go(mut self, tick: Duration, receiver: &Receiver<Message>) -> Vec<DebouncedEvent> {
        let mut next = Instant::now() + tick;
        // The handler's thread may have ended by a panic: then nobody is left to emit to.
        while self.takes_until(next, receiver) && self.turn(next) {
            next = Instant::now() + tick;
        }
        self.take_last(receiver);
        let waiting = self.core.outlook().unwrap_or_default();
        self.debounced(waiting)
    }

    /// Takes all that was sent before this moment; whether the debouncer goes on. What is sent during a tick isn't
    /// emitted by it, however long the queue is.
    fn takes_until(&mut self, moment: Instant, receiver: &Receiver<Message>) -> bool {
        loop {
            let message = match receiver.recv_timeout(moment.saturating_duration_since(Instant::now())) {
                Err(RecvTimeoutError::Timeout) => return true,
                Ok(Message::Stop) | Err(RecvTimeoutError::Disconnected) => return false,
                Ok(message) => message,
            };
            let is_later = matches!(&message, Message::Event { time, .. } if *time > moment);
            self.take(message);
            if is_later {
                return true;
            }
        }
    }

    /// Takes what the watcher had reported when it was dropped.
    fn take_last(&mut self, receiver: &Receiver<Message>) {
        let end = Instant::now() + LAST_EVENTS;
        while let Ok(message) = receiver.recv_timeout(end.saturating_duration_since(Instant::now())) {
            self.take(message);
        }
    }

    fn take(&mut self, message: Message) {
        let taken = match message {
            Message::Event { event, exists, time } => self.take_event(&event, exists, time),
            // An error with more than the core keeps of one is handed on as it is.
            Message::Error(error) => Err(error),
            Message::Watch(path, mode) => self.watch(path, mode),
            Message::Unwatch(path) => self.unwatch(&path),
            Message::Stop => Ok(()),
        };
        if let Err(error) = taken {
            self.errors.push(error);
        }
    }

    fn watch(&mut self, path: PathBuf, mode: RecursiveMode) -> Result<()> {
        self.cache.add_path(&path, mode);
        self.core.watch(&path, mode).map_err(|error| error.add_path(path.clone()))?;
        self.roots.retain(|(root, _)| *root != path);
        self.roots.push((path, mode));
        Ok(())
    }

    fn unwatch(&mut self, path: &Path) -> Result<()> {
        self.cache.remove_path(path);
        self.roots.retain(|(root, _)| !root.starts_with(path));
        self.core.unwatch(path).map_err(|error| error.add_path(path.to_path_buf()))
    }

    fn take_event(&mut self, event: &Event, exists: bool, time: Instant) -> Result<()> {
        let moment = self.moment(time);
        self.say_number(event, exists)
            .and_then(|()| self.core.add_event(event, moment, exists))
            .map_err(|error| event.paths.iter().fold(error, |error, path| error.add_path(path.clone())))?;
        let goes = event.kind.is_remove() || first_half(event.kind, exists);
        if let (true, Some(path)) = (goes, event.paths.first()) {
            self.cache.remove_path(path);
        }
        Ok(())
    }

    /// Tells the core the number of the event's file, as the cache has it.
    fn say_number(&mut self, event: &Event, exists: bool) -> Result<()> {
        if event.need_rescan() {
            self.cache.rescan(&self.roots);
        }
        let Some(path) = event.paths.first() else {
            return Ok(());
        };
        let comes = event.kind.is_create() || second_half(event.kind, exists);
        let goes = event.kind.is_remove() || first_half(event.kind, exists);
        if comes || (!goes && self.cache.cached_file_id(path).is_none()) {
            self.cache.add_path(path, self.mode_of(path));
        }
        let number = self.cache.cached_file_id(path).and_then(|number| number.as_ref().words());
        match number {
            Some((device, inode)) => self.core.set_number(path, device, inode),
            None => Ok(()),
        }
    }

    /// The mode of the first watched path at or above this one.
    fn mode_of(&self, path: &Path) -> RecursiveMode {
        let root = self.roots.iter().find(|(root, _)| path.starts_with(root));
        root.map_or(RecursiveMode::NonRecursive, |(_, mode)| *mode)
    }

    /// A tick: the handler is given what is expired, and the errors, if it has returned. Whether it can be called.
    fn turn(&mut self, now: Instant) -> bool {
        if !self.is_idle.load(Ordering::Acquire) {
            return true;
        }
        let now = self.moment(now);
        let batch = match self.core.tick(now) {
            Ok(batch) => self.debounced(batch),
            // All waits on, and a later tick emits it.
            Err(Error { kind: ErrorKind::Memory, .. }) => Vec::new(),
            Err(error) => {
                self.errors.push(error);
                Vec::new()
            }
        };
        let turn = Turn { batch, errors: mem::take(&mut self.errors) };
        if turn.batch.is_empty() && turn.errors.is_empty() {
            return true;
        }
        self.is_idle.store(false, Ordering::Release);
        self.turns.send(turn).is_ok()
    }

    /// Nanoseconds since the beginning.
    fn moment(&self, time: Instant) -> u64 {
        u64::try_from(time.saturating_duration_since(self.begin).as_nanos()).unwrap_or(u64::MAX)
    }

    fn debounced(&self, batch: Vec<Emitted>) -> Vec<DebouncedEvent> {
        let time_of = |emitted: &Emitted| self.begin + Duration::from_nanos(emitted.time);
        let events = batch
            .into_iter()
            .map(|emitted| {
                let time = time_of(&emitted);
                DebouncedEvent::new(emitted.event, time)
            })
            .collect();
        if self.joins_moves {
            join_moves(events)
        } else {
            events
        }
    }
}

/// Whether it is the first half of a rename, by whose path nothing stands any longer.
fn first_half(kind: EventKind, exists: bool) -> bool {
    match kind {
        EventKind::Modify(ModifyKind::Name(RenameMode::From)) => true,
        EventKind::Modify(ModifyKind::Name(RenameMode::Any)) => !exists,
        _ => false,
    }
}

/// Whether it is the second half of a rename.
fn second_half(kind: EventKind, exists: bool) -> bool {
    match kind {
        EventKind::Modify(ModifyKind::Name(RenameMode::To)) => true,
        EventKind::Modify(ModifyKind::Name(RenameMode::Any)) => exists,
        _ => false,
    }
}
