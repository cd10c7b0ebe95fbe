//! The number of a file, by the names of the crate file-id.
use std::io;
use std::path::Path;

/// The number of a file: of two paths with one number each is a name of one file.
#[derive(Clone, Copy, Debug, PartialEq, Eq, PartialOrd, Ord, Hash)]
pub enum FileId {
    /// Its device and its inode.
    Inode {
        /// The device.
        device_id: u64,
        /// The inode.
        inode_number: u64,
    },
    /// Its volume and its index, of Windows.
    LowRes {
        /// The volume.
        volume_serial_number: u32,
        /// The index.
        file_index: u64,
    },
    /// Its volume and its long number, of Windows. The core has no room for one of more than 64 bits.
    HighRes {
        /// The volume.
        volume_serial_number: u64,
        /// The number.
        file_id: u128,
    },
}

impl FileId {
    /// A device and an inode.
    pub fn new_inode(device_id: u64, inode_number: u64) -> FileId {
        FileId::Inode { device_id, inode_number }
    }

    /// A volume and an index.
    pub fn new_low_res(volume_serial_number: u32, file_index: u64) -> FileId {
        FileId::LowRes { volume_serial_number, file_index }
    }

    /// A volume and a long number.
    pub fn new_high_res(volume_serial_number: u64, file_id: u128) -> FileId {
        FileId::HighRes { volume_serial_number, file_id }
    }

    /// The two words that the core takes, if it has room for the number.
    pub(crate) fn words(self) -> Option<(u64, u64)> {
        match self {
            FileId::Inode { device_id, inode_number } => Some((device_id, inode_number)),
            FileId::LowRes { volume_serial_number, file_index } => Some((volume_serial_number.into(), file_index)),
            FileId::HighRes { volume_serial_number, file_id } => {
                Some((volume_serial_number, u64::try_from(file_id).ok()?))
            }
        }
    }
}

impl AsRef<FileId> for FileId {
    fn as_ref(&self) -> &FileId {
        self
    }
}

/// Asks the disk for the number of the file at a path. Where there are no inodes it is refused.
#[cfg(unix)]
pub fn get_file_id(path: impl AsRef<Path>) -> io::Result<FileId> {
    use std::os::unix::fs::MetadataExt;
    let data = path.as_ref().metadata()?;
    Ok(FileId::new_inode(data.dev(), data.ino()))
}

/// Asks the disk for the number of the file at a path. Where there are no inodes it is refused.
#[cfg(not(unix))]
pub fn get_file_id(_: impl AsRef<Path>) -> io::Result<FileId> {
    Err(io::ErrorKind::Unsupported.into())
}
