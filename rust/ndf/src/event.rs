//! Events, by the names of notify.
use std::path::PathBuf;

/// How a file was opened or closed.
#[derive(Clone, Copy, Debug, PartialEq, Eq, Hash)]
pub enum AccessMode {
    /// Not known.
    Any,
    /// To be executed.
    Execute,
    /// To be read.
    Read,
    /// To be written.
    Write,
    /// Known, and none of these.
    Other,
}

/// An access that changes nothing.
#[derive(Clone, Copy, Debug, PartialEq, Eq, Hash)]
pub enum AccessKind {
    /// Not known.
    Any,
    /// The file was read.
    Read,
    /// The file was opened.
    Open(AccessMode),
    /// The file was closed.
    Close(AccessMode),
    /// Known, and none of these.
    Other,
}

/// What was created.
#[derive(Clone, Copy, Debug, PartialEq, Eq, Hash)]
pub enum CreateKind {
    /// Not known.
    Any,
    /// A file, or what else is no folder.
    File,
    /// A folder.
    Folder,
    /// Known, and neither.
    Other,
}

/// How the data of a file changed.
#[derive(Clone, Copy, Debug, PartialEq, Eq, Hash)]
pub enum DataChange {
    /// Not known.
    Any,
    /// Its size.
    Size,
    /// Its content.
    Content,
    /// Known, and neither.
    Other,
}

/// What changed beside the data of a file.
#[derive(Clone, Copy, Debug, PartialEq, Eq, Hash)]
pub enum MetadataKind {
    /// Not known.
    Any,
    /// When it was read last.
    AccessTime,
    /// When it was written last.
    WriteTime,
    /// Who may do what with it.
    Permissions,
    /// Whose it is.
    Ownership,
    /// Extended attributes.
    Extended,
    /// Known, and none of these.
    Other,
}

/// Which part of a rename an event tells.
#[derive(Clone, Copy, Debug, PartialEq, Eq, Hash)]
pub enum RenameMode {
    /// One half, and which one isn't known.
    Any,
    /// The second half: the path is the new one.
    To,
    /// The first half: the path is the old one.
    From,
    /// Both: the first path became the second.
    Both,
    /// Known, and none of these.
    Other,
}

/// How something changed.
#[derive(Clone, Copy, Debug, PartialEq, Eq, Hash)]
pub enum ModifyKind {
    /// Not known.
    Any,
    /// Its data.
    Data(DataChange),
    /// What is beside the data.
    Metadata(MetadataKind),
    /// Its name.
    Name(RenameMode),
    /// Known, and none of these.
    Other,
}

/// What was removed.
#[derive(Clone, Copy, Debug, PartialEq, Eq, Hash)]
pub enum RemoveKind {
    /// Not known.
    Any,
    /// A file, or what else is no folder.
    File,
    /// A folder, with all that is below it.
    Folder,
    /// Known, and neither.
    Other,
}

/// What happened.
#[derive(Clone, Copy, Debug, Default, PartialEq, Eq, Hash)]
pub enum EventKind {
    /// Not known.
    #[default]
    Any,
    /// An access that changes nothing.
    Access(AccessKind),
    /// A creation.
    Create(CreateKind),
    /// A change of what was there and is there.
    Modify(ModifyKind),
    /// A removal.
    Remove(RemoveKind),
    /// Something that no other kind says, as that events were lost.
    Other,
}

/// The kinds in the order of their numbers.
const KINDS: [EventKind; 41] = [
    EventKind::Any,
    EventKind::Access(AccessKind::Any),
    EventKind::Access(AccessKind::Read),
    EventKind::Access(AccessKind::Open(AccessMode::Any)),
    EventKind::Access(AccessKind::Open(AccessMode::Execute)),
    EventKind::Access(AccessKind::Open(AccessMode::Read)),
    EventKind::Access(AccessKind::Open(AccessMode::Write)),
    EventKind::Access(AccessKind::Open(AccessMode::Other)),
    EventKind::Access(AccessKind::Close(AccessMode::Any)),
    EventKind::Access(AccessKind::Close(AccessMode::Execute)),
    EventKind::Access(AccessKind::Close(AccessMode::Read)),
    EventKind::Access(AccessKind::Close(AccessMode::Write)),
    EventKind::Access(AccessKind::Close(AccessMode::Other)),
    EventKind::Access(AccessKind::Other),
    EventKind::Create(CreateKind::Any),
    EventKind::Create(CreateKind::File),
    EventKind::Create(CreateKind::Folder),
    EventKind::Create(CreateKind::Other),
    EventKind::Modify(ModifyKind::Any),
    EventKind::Modify(ModifyKind::Data(DataChange::Any)),
    EventKind::Modify(ModifyKind::Data(DataChange::Size)),
    EventKind::Modify(ModifyKind::Data(DataChange::Content)),
    EventKind::Modify(ModifyKind::Data(DataChange::Other)),
    EventKind::Modify(ModifyKind::Metadata(MetadataKind::Any)),
    EventKind::Modify(ModifyKind::Metadata(MetadataKind::AccessTime)),
    EventKind::Modify(ModifyKind::Metadata(MetadataKind::WriteTime)),
    EventKind::Modify(ModifyKind::Metadata(MetadataKind::Permissions)),
    EventKind::Modify(ModifyKind::Metadata(MetadataKind::Ownership)),
    EventKind::Modify(ModifyKind::Metadata(MetadataKind::Extended)),
    EventKind::Modify(ModifyKind::Metadata(MetadataKind::Other)),
    EventKind::Modify(ModifyKind::Name(RenameMode::Any)),
    EventKind::Modify(ModifyKind::Name(RenameMode::To)),
    EventKind::Modify(ModifyKind::Name(RenameMode::From)),
    EventKind::Modify(ModifyKind::Name(RenameMode::Both)),
    EventKind::Modify(ModifyKind::Name(RenameMode::Other)),
    EventKind::Modify(ModifyKind::Other),
    EventKind::Remove(RemoveKind::Any),
    EventKind::Remove(RemoveKind::File),
    EventKind::Remove(RemoveKind::Folder),
    EventKind::Remove(RemoveKind::Other),
    EventKind::Other,
];

impl EventKind {
    /// Whether it is an access.
    pub fn is_access(&self) -> bool {
        matches!(self, EventKind::Access(_))
    }

    /// Whether it is a creation.
    pub fn is_create(&self) -> bool {
        matches!(self, EventKind::Create(_))
    }

    /// Whether it is a change.
    pub fn is_modify(&self) -> bool {
        matches!(self, EventKind::Modify(_))
    }

    /// Whether it is a removal.
    pub fn is_remove(&self) -> bool {
        matches!(self, EventKind::Remove(_))
    }

    /// Whether it is [`EventKind::Other`].
    pub fn is_other(&self) -> bool {
        matches!(self, EventKind::Other)
    }

    pub(crate) fn number(self) -> u32 {
        KINDS.iter().position(|kind| *kind == self).unwrap_or(0) as u32
    }

    pub(crate) fn of_number(number: u32) -> EventKind {
        KINDS.get(number as usize).copied().unwrap_or(EventKind::Any)
    }
}

/// What an event asks of its reader.
#[derive(Clone, Copy, Debug, PartialEq, Eq, Hash)]
pub enum Flag {
    /// Events were lost: what is watched should be read anew.
    Rescan,
}

/// What else is known of an event.
#[derive(Clone, Debug, Default, PartialEq, Eq, Hash)]
pub struct EventAttributes {
    tracker: Option<usize>,
    flag: Option<Flag>,
    info: Option<String>,
    source: Option<String>,
    process_id: Option<u32>,
}

impl EventAttributes {
    /// Attributes of which nothing is known.
    pub fn new() -> EventAttributes {
        EventAttributes::default()
    }

    /// The number that the events of one rename share.
    pub fn tracker(&self) -> Option<usize> {
        self.tracker
    }

    /// What the event asks of its reader.
    pub fn flag(&self) -> Option<Flag> {
        self.flag
    }

    /// What the watcher says beside the kind.
    pub fn info(&self) -> Option<&str> {
        self.info.as_deref()
    }

    /// The name of what found the event.
    pub fn source(&self) -> Option<&str> {
        self.source.as_deref()
    }

    /// The process that caused the event.
    pub fn process_id(&self) -> Option<u32> {
        self.process_id
    }

    /// The tracker is this one from now on.
    pub fn set_tracker(&mut self, tracker: usize) {
        self.tracker = Some(tracker);
    }

    /// The flag is this one from now on.
    pub fn set_flag(&mut self, flag: Flag) {
        self.flag = Some(flag);
    }

    /// The info is this one from now on.
    pub fn set_info(&mut self, info: &str) {
        self.info = Some(info.to_string());
    }

    /// The source is this one from now on.
    pub fn set_source(&mut self, source: &str) {
        self.source = Some(source.to_string());
    }

    /// The process is this one from now on.
    pub fn set_process_id(&mut self, process_id: u32) {
        self.process_id = Some(process_id);
    }
}

/// Something that happened to the paths, of which the core takes at most two.
#[derive(Clone, Debug, Default, PartialEq, Eq, Hash)]
pub struct Event {
    /// What happened.
    pub kind: EventKind,
    /// Where it happened: of a joined rename the old path and then the new one.
    pub paths: Vec<PathBuf>,
    /// What else is known.
    pub attrs: EventAttributes,
}

impl Event {
    /// An event of no path.
    pub fn new(kind: EventKind) -> Event {
        Event { kind, ..Event::default() }
    }

    /// The event with this kind.
    pub fn set_kind(mut self, kind: EventKind) -> Event {
        self.kind = kind;
        self
    }

    /// The event with a further path.
    pub fn add_path(mut self, path: PathBuf) -> Event {
        self.paths.push(path);
        self
    }

    /// The event with a further path, if there is one.
    pub fn add_some_path(mut self, path: Option<PathBuf>) -> Event {
        self.paths.extend(path);
        self
    }

    /// The event with this tracker.
    pub fn set_tracker(mut self, tracker: usize) -> Event {
        self.attrs.set_tracker(tracker);
        self
    }

    /// The event with this flag.
    pub fn set_flag(mut self, flag: Flag) -> Event {
        self.attrs.set_flag(flag);
        self
    }

    /// The event with this info.
    pub fn set_info(mut self, info: &str) -> Event {
        self.attrs.set_info(info);
        self
    }

    /// The event with this source.
    pub fn set_source(mut self, source: &str) -> Event {
        self.attrs.set_source(source);
        self
    }

    /// The event with this process.
    pub fn set_process_id(mut self, process_id: u32) -> Event {
        self.attrs.set_process_id(process_id);
        self
    }

    /// Whether events were lost, so that what is watched should be read anew.
    pub fn need_rescan(&self) -> bool {
        self.flag() == Some(Flag::Rescan)
    }

    /// The number that the events of one rename share.
    pub fn tracker(&self) -> Option<usize> {
        self.attrs.tracker()
    }

    /// What the event asks of its reader.
    pub fn flag(&self) -> Option<Flag> {
        self.attrs.flag()
    }

    /// What the watcher says beside the kind.
    pub fn info(&self) -> Option<&str> {
        self.attrs.info()
    }

    /// The name of what found the event.
    pub fn source(&self) -> Option<&str> {
        self.attrs.source()
    }

    /// The process that caused the event.
    pub fn process_id(&self) -> Option<u32> {
        self.attrs.process_id()
    }
}
