//! A watcher over inotify, whose notices are only places to look at. If notices were lost, all roots are watched anew and
//! looked at, and an event that asks to read all anew is reported. What can't be watched is an error. A root that is
//! gone, or has become another one, is looked for until it is there again.
use crate::config::{Config, RecursiveMode};
use crate::error::{Error, Result};
use crate::event::{Event, EventKind, Flag};
use crate::look::{add_place, is_gone, refused, Folders, Looks, Places, Reason, Stands};
use crate::watcher::{absolute, EventHandler, Watcher, WatcherKind};
use std::collections::{HashMap, HashSet};
use std::ffi::{c_char, c_int, c_short, c_ulong, CString, OsStr};
use std::fs::File;
use std::io::{self, Read, Write};
use std::os::fd::{AsRawFd, FromRawFd};
use std::os::unix::ffi::OsStrExt;
use std::os::unix::net::UnixStream;
use std::path::{Path, PathBuf};
use std::sync::mpsc::{self, Receiver, Sender};
use std::{fmt, mem, thread};

const MODIFY: u32 = 0x2;
const ATTRIB: u32 = 0x4;
const MOVED_FROM: u32 = 0x40;
const MOVED_TO: u32 = 0x80;
const CREATE: u32 = 0x100;
const DELETE: u32 = 0x200;
const DELETE_SELF: u32 = 0x400;
const MOVE_SELF: u32 = 0x800;
const UNMOUNT: u32 = 0x2000;
const OVERFLOW: u32 = 0x4000;
const IGNORED: u32 = 0x8000;
const ONLY_FOLDERS: u32 = 0x0100_0000;
const DONT_FOLLOW: u32 = 0x0200_0000;
const NOT_UNLINKED: u32 = 0x0400_0000;
const IS_FOLDER: u32 = 0x4000_0000;
const MASK: u32 = MODIFY | ATTRIB | MOVED_FROM | MOVED_TO | CREATE | DELETE | DELETE_SELF | MOVE_SELF | NOT_UNLINKED;
/// Of folders below a root: a link is no folder there.
const FOLDER_MASK: u32 = MASK | ONLY_FOLDERS | DONT_FOLLOW;

#[cfg(any(target_arch = "mips", target_arch = "mips64", target_arch = "mips32r6", target_arch = "mips64r6"))]
const NONBLOCK_CLOEXEC: c_int = 0x80 | 0x8_0000;
#[cfg(any(target_arch = "sparc", target_arch = "sparc64"))]
const NONBLOCK_CLOEXEC: c_int = 0x4000 | 0x40_0000;
#[cfg(not(any(
    target_arch = "mips",
    target_arch = "mips64",
    target_arch = "mips32r6",
    target_arch = "mips64r6",
    target_arch = "sparc",
    target_arch = "sparc64"
)))]
const NONBLOCK_CLOEXEC: c_int = 0x800 | 0x8_0000;

const POLLIN: c_short = 1;
/// How long, in milliseconds, until a root that is gone is looked for again.
const PAUSE: c_int = 200;
/// How long, in milliseconds, the second half of a rename may need to follow the first.
const HALF: c_int = 2;
/// How many reads take what a full queue holds.
const LAST_READS: usize = 128;

#[repr(C)]
struct PollFd {
    fd: c_int,
    events: c_short,
    revents: c_short,
}

extern "C" {
    fn inotify_init1(flags: c_int) -> c_int;
    fn inotify_add_watch(fd: c_int, path: *const c_char, mask: u32) -> c_int;
    fn inotify_rm_watch(fd: c_int, number: c_int) -> c_int;
    fn poll(fds: *mut PollFd, count: c_ulong, timeout: c_int) -> c_int;
}

/// An instance of inotify, with which folders and roots it watches.
struct Notes {
    file: File,
    /// What each watch is of: two paths, if a folder is watched under two names.
    watched: HashMap<c_int, Vec<(PathBuf, Stands)>>,
}

impl Notes {
    fn new() -> io::Result<Notes> {
        // SAFETY: the call has no pointer, and what it returns is a descriptor of our own.
        let number = unsafe { inotify_init1(NONBLOCK_CLOEXEC) };
        if number < 0 {
            return Err(io::Error::last_os_error());
        }
        Ok(Notes { file: unsafe { File::from_raw_fd(number) }, watched: HashMap::new() })
    }

    fn add(&self, path: &Path, mask: u32) -> io::Result<c_int> {
        let text = CString::new(path.as_os_str().as_bytes())?;
        // SAFETY: the text ends with a zero, and lives through the call.
        let number = unsafe { inotify_add_watch(self.file.as_raw_fd(), text.as_ptr(), mask) };
        if number < 0 {
            return Err(io::Error::last_os_error());
        }
        Ok(number)
    }

    /// Forgets each path that isn't to be kept, and watches no longer what has none left.
    fn retain(&mut self, mut keeps: impl FnMut(&Path, &Stands) -> bool) {
        let file = self.file.as_raw_fd();
        self.watched.retain(|number, paths| {
            paths.retain(|(path, stands)| keeps(path, stands));
            if paths.is_empty() {
                // SAFETY: the call has no pointer.
                unsafe { inotify_rm_watch(file, *number) };
            }
            !paths.is_empty()
        });
    }

    /// What one read has. The second half of a rename may come a moment after the first.
    fn read(&mut self, buf: &mut [u8]) -> usize {
        let half = buf.len() / 2;
        let len = self.file.read(&mut buf[..half]).unwrap_or(0);
        let ends_with_half = Notices(&buf[..len]).last().is_some_and(|notice| notice.mask & MOVED_FROM != 0);
        if ends_with_half && waits([self.file.as_raw_fd()], HALF)[0] {
            return len + self.file.read(&mut buf[len..]).unwrap_or(0);
        }
        len
    }
}

impl Folders for Notes {
    fn watch(&mut self, path: &Path, stands: &Stands, is_root: bool) -> Result<bool> {
        let number = match self.add(path, if is_root { MASK } else { FOLDER_MASK }) {
            Err(error) if is_gone(&error) && !is_root => return Ok(false),
            number => number.map_err(|error| refused(error, path))?,
        };
        let paths = self.watched.entry(number).or_default();
        if let Some(known) = paths.iter_mut().find(|(known, _)| known == path) {
            known.1 = *stands;
            return Ok(false);
        }
        paths.push((path.to_path_buf(), *stands));
        Ok(true)
    }

    fn all(&self) -> Vec<PathBuf> {
        self.watched.values().flatten().map(|(path, _)| path.clone()).collect()
    }
}

/// Which of these have something to read, at the latest after so many milliseconds.
fn waits<const N: usize>(files: [c_int; N], timeout: c_int) -> [bool; N] {
    let mut fds = files.map(|fd| PollFd { fd, events: POLLIN, revents: 0 });
    // SAFETY: they stand in an array of our own.
    unsafe { poll(fds.as_mut_ptr(), N as c_ulong, timeout) };
    fds.map(|fd| fd.revents != 0)
}

/// What was read: notices, each a number, a mask, a cookie, a length and a name.
struct Notices<'a>(&'a [u8]);

struct Notice<'a> {
    number: c_int,
    mask: u32,
    name: &'a OsStr,
}

impl<'a> Iterator for Notices<'a> {
    type Item = Notice<'a>;

    fn next(&mut self) -> Option<Notice<'a>> {
        let (bytes, word) = (self.0, |i: usize| Some(u32::from_ne_bytes(self.0.get(i..i + 4)?.try_into().ok()?)));
        let (number, mask, len) = (word(0)? as c_int, word(4)?, word(12)? as usize);
        let name = bytes.get(16..16 + len)?.split(|byte| *byte == 0).next().unwrap_or(&[]);
        self.0 = &bytes[16 + len..];
        Some(Notice { number, mask, name: OsStr::from_bytes(name) })
    }
}

/// What the watcher asks of its thread.
enum Command {
    Watch(PathBuf, RecursiveMode),
    Unwatch(PathBuf),
}

/// The watcher. Dropping it tells its thread to end, and doesn't wait for that.
pub struct INotifyWatcher {
    commands: Sender<(Command, Sender<Result<()>>)>,
    /// The thread wakes by what is written here, and ends once this end is gone.
    wakes: UnixStream,
}

impl fmt::Debug for INotifyWatcher {
    fn fmt(&self, out: &mut fmt::Formatter<'_>) -> fmt::Result {
        out.debug_struct("INotifyWatcher").finish_non_exhaustive()
    }
}

impl INotifyWatcher {
    fn ask(&mut self, command: Command) -> Result<()> {
        let (sender, answer) = mpsc::channel();
        self.commands.send((command, sender))?;
        self.wakes.write_all(&[0])?;
        answer.recv()?
    }
}

impl Watcher for INotifyWatcher {
    fn new<H: EventHandler>(handler: H, _: Config) -> Result<INotifyWatcher> {
        let (wakes, woken) = UnixStream::pair()?;
        woken.set_nonblocking(true)?;
        let (commands, asked) = mpsc::channel();
        let (ready, is_ready) = mpsc::channel();
        let notes = Notes::new()?;
        // The core stays on this thread, from its beginning to its end.
        thread::Builder::new().name("inotify".to_string()).spawn(move || match Looks::new() {
            Ok(looks) => {
                let _ = ready.send(Ok(()));
                let (gone, is_incomplete) = (HashSet::new(), false);
                Listener { notes, looks, asked, woken, handler, gone, is_incomplete }.go();
            }
            Err(error) => drop(ready.send(Err(error))),
        })?;
        is_ready.recv()??;
        Ok(INotifyWatcher { commands, wakes })
    }

    /// Watches a file or a folder, also through a link, from now on. If one of its folders can't be watched, it is an
    /// error, and the path isn't watched. A path that is watched already gets this mode. It waits for the watcher's
    /// thread, so its handler may not call it.
    fn watch(&mut self, path: &Path, mode: RecursiveMode) -> Result<()> {
        self.ask(Command::Watch(absolute(path)?, mode))
    }

    fn unwatch(&mut self, path: &Path) -> Result<()> {
        self.ask(Command::Unwatch(absolute(path)?))
    }

    fn kind() -> WatcherKind {
        WatcherKind::Inotify
    }
}

/// The thread.
struct Listener<H> {
    notes: Notes,
    looks: Looks,
    asked: Receiver<(Command, Sender<Result<()>>)>,
    woken: UnixStream,
    handler: H,
    /// The roots at which nothing stands, as was said.
    gone: HashSet<PathBuf>,
    /// Whether a look wasn't ended, for want of memory.
    is_incomplete: bool,
}

impl<H: EventHandler> Listener<H> {
    fn go(mut self) {
        let mut buf = vec![0; 131_072];
        loop {
            let timeout = if self.gone.is_empty() && !self.is_incomplete { -1 } else { PAUSE };
            let [_, is_woken] = waits([self.notes.file.as_raw_fd(), self.woken.as_raw_fd()], timeout);
            if is_woken && self.woken.read(&mut [0; 64]).is_ok_and(|len| len == 0) {
                break;
            }
            self.turn(&mut buf);
            while let Ok((command, answer)) = self.asked.try_recv() {
                let _ = answer.send(self.obey(command));
            }
        }
        // What happened before the end is taken too, but no more than that.
        for _ in 0..LAST_READS {
            if !self.turn(&mut buf) {
                return;
            }
        }
    }

    fn obey(&mut self, command: Command) -> Result<()> {
        let done = match command {
            Command::Watch(path, mode) => self.looks.add_root(&path, mode, &mut self.notes).map(|events| {
                self.handler.handle_events(events.into_iter().map(Ok).collect());
            }),
            Command::Unwatch(path) if self.looks.remove_root(&path) => Ok(()),
            Command::Unwatch(path) => Err(Error::watch_not_found().add_path(path)),
        };
        let looks = &self.looks;
        self.gone.retain(|path| looks.roots().any(|root| root == path));
        self.notes.retain(|path, _| looks.lists(path));
        done
    }

    /// One read, however much comes, and one look; whether there was anything.
    fn turn(&mut self, buf: &mut [u8]) -> bool {
        let len = self.notes.read(buf);
        let (mut places, mut is_lost) = (Places::new(), mem::take(&mut self.is_incomplete));
        for notice in Notices(&buf[..len]) {
            is_lost |= notice.mask & OVERFLOW != 0;
            self.take(&notice, &mut places);
        }
        if is_lost {
            self.begin_anew(&mut places);
        }
        self.check_roots(&mut places);
        let has_moved = is_lost || places.values().any(|reason| reason.whole);
        let looked = self.looks.look(places, &mut self.notes);
        self.hand_on(looked);
        if is_lost {
            self.handler.handle_event(Ok(Event::new(EventKind::Other).set_flag(Flag::Rescan)));
        }
        if has_moved {
            // What isn't known at its path went elsewhere.
            let looks = &mut self.looks;
            self.notes.retain(|path, stands| looks.known(path).is_some_and(|known| known.is_same(stands)));
        }
        len > 0
    }

    /// Hands on what a look has told, or why it has told nothing.
    fn hand_on(&mut self, looked: Result<Vec<Result<Event>>>) {
        match looked {
            Ok(reports) => self.handler.handle_events(reports),
            Err(error) => {
                self.is_incomplete = true;
                self.handler.handle_event(Err(error));
            }
        }
    }

    fn take(&mut self, notice: &Notice, places: &mut Places) {
        let Notice { number, mask, name } = *notice;
        let paths = match mask & IGNORED {
            0 => self.notes.watched.get(&number).cloned(),
            _ => self.notes.watched.remove(&number),
        };
        let is_folder = mask & IS_FOLDER != 0;
        let comes_or_goes = CREATE | MOVED_FROM | MOVED_TO | if self.looks.is_blind() { ATTRIB } else { 0 };
        for (path, _) in paths.into_iter().flatten() {
            let written = mask & MODIFY != 0;
            let touched = mask & ATTRIB != 0;
            if !name.is_empty() {
                let whole = is_folder && mask & comes_or_goes != 0;
                let anew = !is_folder && mask & (CREATE | MOVED_TO) != 0;
                add_place(places, path.join(name), Reason { whole, anew, written, touched });
            } else if mask & (IGNORED | UNMOUNT) != 0 {
                add_place(places, path, Reason::WHOLE);
            } else if self.looks.roots().any(|root| *root == path) {
                // Of what isn't a root, the folder above says it too.
                add_place(places, path, Reason { written, touched, ..Reason::default() });
            }
        }
    }

    /// Notices were lost, so which folders there are isn't known. With another instance all begins anew: to end each
    /// watch of the old one would fill its queue again.
    fn begin_anew(&mut self, places: &mut Places) {
        match Notes::new() {
            Ok(notes) => self.notes = notes,
            // There is no further instance: this one goes on, and what it tells of other folders is passed over.
            Err(_) => self.notes.watched.clear(),
        }
        self.looks.add_all(places);
    }

    /// A root at which something else stands than is known was moved, replaced or unmounted, or is there again. That
    /// nothing stands there is said once.
    fn check_roots(&mut self, places: &mut Places) {
        let roots: Vec<PathBuf> = self.looks.roots().cloned().collect();
        for root in roots {
            let standing = self.looks.standing(&root);
            let known = self.looks.known(&root);
            let is_same = match (&standing, known) {
                (Ok(Some(now)), Some(known)) => now.is_same(&known),
                (Ok(None), None) | (Err(_), _) => true,
                _ => false,
            };
            if !is_same {
                if known.is_some() {
                    let looked = self.looks.lose(&root);
                    self.hand_on(looked);
                }
                add_place(places, root.clone(), Reason::WHOLE);
            }
            match standing {
                Ok(Some(_)) => drop(self.gone.remove(&root)),
                Ok(None) if self.gone.insert(root.clone()) => {
                    self.handler.handle_event(Err(Error::path_not_found().add_path(root)));
                }
                Err(error) if self.gone.insert(root.clone()) => self.handler.handle_event(Err(refused(error, &root))),
                Ok(None) | Err(_) => {}
            }
        }
    }
}
