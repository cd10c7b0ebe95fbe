// A stand-in for the crate notify_types: only what the debouncer's source names.
// The shapes follow the real crate where they matter for size and speed: kinds are Copy and
// hashed and compared as a whole, the attributes are one boxed record that is made when it is needed.

pub mod event {
    use std::path::PathBuf;

    #[derive(Clone, Copy, Debug, PartialEq, Eq, Hash)]
    pub enum AccessMode {
        Any,
        Execute,
        Read,
        Write,
        Other,
    }

    #[derive(Clone, Copy, Debug, PartialEq, Eq, Hash)]
    pub enum AccessKind {
        Any,
        Read,
        Open(AccessMode),
        Close(AccessMode),
        Other,
    }

    #[derive(Clone, Copy, Debug, PartialEq, Eq, Hash)]
    pub enum CreateKind {
        Any,
        File,
        Folder,
        Other,
    }

    #[derive(Clone, Copy, Debug, PartialEq, Eq, Hash)]
    pub enum DataChange {
        Any,
        Size,
        Content,
        Other,
    }

    #[derive(Clone, Copy, Debug, PartialEq, Eq, Hash)]
    pub enum MetadataKind {
        Any,
        AccessTime,
        WriteTime,
        Permissions,
        Ownership,
        Extended,
        Other,
    }

    #[derive(Clone, Copy, Debug, PartialEq, Eq, Hash)]
    pub enum RenameMode {
        Any,
        To,
        From,
        Both,
        Other,
    }

    #[derive(Clone, Copy, Debug, PartialEq, Eq, Hash)]
    pub enum ModifyKind {
        Any,
        Data(DataChange),
        Metadata(MetadataKind),
        Name(RenameMode),
        Other,
    }

    #[derive(Clone, Copy, Debug, PartialEq, Eq, Hash)]
    pub enum RemoveKind {
        Any,
        File,
        Folder,
        Other,
    }

    #[derive(Clone, Copy, Debug, Default, PartialEq, Eq, Hash)]
    pub enum EventKind {
        #[default]
        Any,
        Access(AccessKind),
        Create(CreateKind),
        Modify(ModifyKind),
        Remove(RemoveKind),
        Other,
    }

    #[derive(Clone, Copy, Debug, PartialEq, Eq, Hash)]
    pub enum Flag {
        Rescan,
    }

    #[derive(Clone, Debug, Default, PartialEq, Eq, Hash)]
    pub struct EventAttributes {
        inner: Option<Box<Inner>>,
    }

    #[derive(Clone, Debug, Default, PartialEq, Eq, Hash)]
    struct Inner {
        tracker: Option<usize>,
        flag: Option<Flag>,
        info: Option<String>,
        source: Option<String>,
        process_id: Option<u32>,
    }

    impl EventAttributes {
        pub fn new() -> Self {
            Self { inner: None }
        }

        pub fn tracker(&self) -> Option<usize> {
            self.inner.as_ref().and_then(|i| i.tracker)
        }

        pub fn flag(&self) -> Option<Flag> {
            self.inner.as_ref().and_then(|i| i.flag)
        }

        pub fn info(&self) -> Option<&str> {
            self.inner.as_ref().and_then(|i| i.info.as_deref())
        }

        fn inner_mut(&mut self) -> &mut Inner {
            self.inner.get_or_insert_with(Default::default)
        }

        pub fn set_tracker(&mut self, tracker: usize) {
            self.inner_mut().tracker = Some(tracker);
        }

        pub fn set_flag(&mut self, flag: Flag) {
            self.inner_mut().flag = Some(flag);
        }

        pub fn set_info(&mut self, info: &str) {
            self.inner_mut().info = Some(info.to_string());
        }
    }

    #[derive(Clone, Debug, Default, PartialEq, Eq, Hash)]
    pub struct Event {
        pub kind: EventKind,
        pub paths: Vec<PathBuf>,
        pub attrs: EventAttributes,
    }

    impl Event {
        pub fn new(kind: EventKind) -> Self {
            Self {
                kind,
                paths: Vec::new(),
                attrs: EventAttributes::new(),
            }
        }

        pub fn need_rescan(&self) -> bool {
            matches!(self.attrs.flag(), Some(Flag::Rescan))
        }

        pub fn tracker(&self) -> Option<usize> {
            self.attrs.tracker()
        }

        pub fn info(&self) -> Option<&str> {
            self.attrs.info()
        }

        pub fn add_path(mut self, path: PathBuf) -> Self {
            self.paths.push(path);
            self
        }

        pub fn set_tracker(mut self, tracker: usize) -> Self {
            self.attrs.set_tracker(tracker);
            self
        }

        pub fn set_info(mut self, info: &str) -> Self {
            self.attrs.set_info(info);
            self
        }

        pub fn set_flag(mut self, flag: Flag) -> Self {
            self.attrs.set_flag(flag);
            self
        }
    }
}

pub mod debouncer_full {
    use crate::event::Event;
    use std::{
        ops::{Deref, DerefMut},
        time::Instant,
    };

    #[derive(Debug, Clone, PartialEq, Eq)]
    pub struct DebouncedEvent {
        pub event: Event,
        pub time: Instant,
    }

    impl DebouncedEvent {
        pub fn new(event: Event, time: Instant) -> Self {
            Self { event, time }
        }
    }

    impl Deref for DebouncedEvent {
        type Target = Event;

        fn deref(&self) -> &Self::Target {
            &self.event
        }
    }

    impl DerefMut for DebouncedEvent {
        fn deref_mut(&mut self) -> &mut Self::Target {
            &mut self.event
        }
    }
}
