//! The folder of records: each proof that a command was run for, and what was known of it.

use crate::head::Head;
use crate::sha256::{hex, sha256};
use phieulakhon::{Accepted, FORMAT, VERSION};
use std::ffi::OsString;
use std::fs::{self, File, Metadata, OpenOptions};
use std::io::{self, Read, Seek, Write};
use std::os::unix::ffi::OsStrExt;
use std::os::unix::fs::{MetadataExt, OpenOptionsExt};
use std::path::{Path, PathBuf};
use std::process;
use std::time::{SystemTime, UNIX_EPOCH};

// Of the platform that the library is for.
const O_NOFOLLOW: i32 = 0o400_000;
const O_DIRECTORY: i32 = 0o200_000;
const GROUP_AND_OTHERS_WRITE: u32 = 0o022;

type Sentence = String;

/// A file that was not there, and that only its owner may read and write. What stands under the name
/// already, a symbolic link too, is an error.
fn private(path: &Path) -> io::Result<File> {
    OpenOptions::new()
        .read(true)
        .write(true)
        .create_new(true)
        .mode(0o600)
        .custom_flags(O_NOFOLLOW)
        .open(path)
}

fn same_file(one: &Metadata, other: &Metadata) -> bool {
    (one.dev(), one.ino(), one.len()) == (other.dev(), other.ino(), other.len())
}

pub struct Folder {
    path: PathBuf,
    handle: File,
    owner: u32,
}

impl Folder {
    pub fn open(path: &Path) -> Result<Folder, Sentence> {
        let said = |error: io::Error| format!("the folder of records {path:?}: {error}");
        let mut options = OpenOptions::new();
        options.read(true).custom_flags(O_NOFOLLOW | O_DIRECTORY);
        let handle = options.open(path).map_err(said)?;
        let about = handle.metadata().map_err(said)?;
        if about.mode() & GROUP_AND_OTHERS_WRITE != 0 {
            return Err(format!(
                "the folder of records {path:?} can be written by others: chmod go-w"
            ));
        }
        Ok(Folder {
            path: std::path::absolute(path).map_err(said)?,
            handle,
            owner: about.uid(),
        })
    }

    /// Copies the bytes into a private file of the folder, down to the disk.
    pub fn snapshot(&self, bytes: &[u8], head: &Head) -> Result<Snapshot<'_>, Sentence> {
        let now = SystemTime::now()
            .duration_since(UNIX_EPOCH)
            .unwrap_or_default();
        let name = format!("{}-{}-{}", head.context, now.as_nanos(), process::id());
        let part = self.path.join(format!("{name}.proof.part"));
        let said = |error: io::Error| format!("the copy {part:?}: {error}");
        let file = private(&part).map_err(said)?;
        // From here on a failure removes the file.
        let mut snapshot = Snapshot {
            folder: self,
            name,
            seconds: now.as_secs(),
            file,
            parts: vec![part.clone()],
        };
        let owner = snapshot.file.metadata().map_err(said)?.uid();
        if self.owner != owner && self.owner != 0 {
            return Err(format!(
                "the folder of records {:?} is another user's",
                self.path
            ));
        }
        snapshot.file.write_all(bytes).map_err(said)?;
        snapshot.file.sync_all().map_err(said)?;
        Ok(snapshot)
    }
}

/// A private copy of the proof. What is dropped before it was kept is removed.
pub struct Snapshot<'a> {
    folder: &'a Folder,
    name: String,
    seconds: u64,
    file: File,
    parts: Vec<PathBuf>,
}

/// Where a proof and its record are kept.
pub struct Kept {
    pub proof: PathBuf,
    pub record: PathBuf,
}

impl Snapshot<'_> {
    /// What is in the copy.
    pub fn bytes(&mut self) -> Result<Vec<u8>, Sentence> {
        let mut bytes = Vec::new();
        let said = |error| format!("the copy {:?}: {error}", self.parts[0]);
        self.file.rewind().map_err(said)?;
        self.file.read_to_end(&mut bytes).map_err(said)?;
        Ok(bytes)
    }

    /// Writes the record beside the copy, gives both their names, and has all of it on the disk.
    pub fn keep(
        mut self,
        bytes: &[u8],
        head: &Head,
        accepted: &Accepted,
        command: &[OsString],
    ) -> Result<Kept, Sentence> {
        let path = |end: &str| self.folder.path.join(format!("{}.{end}", self.name));
        let (part, kept) = (
            path("record.part"),
            Kept {
                proof: path("proof"),
                record: path("record"),
            },
        );
        let said = |error: io::Error| format!("the record {:?}: {error}", kept.record);
        let mut file = private(&part).map_err(said)?;
        self.parts.push(part);
        let text = self.text(bytes, head, accepted, command);
        file.write_all(text.as_bytes()).map_err(said)?;
        file.sync_all().map_err(said)?;
        // The record last: where there is one, its proof is there too.
        for (part, to) in self.parts.iter_mut().zip([&kept.proof, &kept.record]) {
            if to.symlink_metadata().is_ok() {
                return Err(format!("the record: {to:?} is there already"));
            }
            fs::rename(&*part, to).map_err(said)?;
            part.clone_from(to);
        }
        self.folder.handle.sync_all().map_err(said)?;
        for (file, to) in [(&self.file, &kept.proof), (&file, &kept.record)] {
            let (ours, there) = (
                file.metadata().map_err(said)?,
                to.symlink_metadata().map_err(said)?,
            );
            if !same_file(&ours, &there) {
                return Err(format!(
                    "the record: {to:?} is not the file that was written"
                ));
            }
        }
        self.parts.clear();
        Ok(kept)
    }

    fn text(&self, bytes: &[u8], head: &Head, accepted: &Accepted, command: &[OsString]) -> String {
        let words: Vec<String> = command
            .iter()
            .map(|word| format!("\"{}\"", word.as_bytes().escape_ascii()))
            .collect();
        [
            format!("program: phieulakhon {VERSION}, format {FORMAT}"),
            format!("time: {}", utc(self.seconds)),
            format!("head: {}", hex(&head.bytes())),
            format!("line: {}", accepted.line()),
            format!("sha256: {}", hex(&sha256(bytes))),
            format!("proof: {}.proof", self.name),
            format!("command: {}", words.join(" ")),
            String::new(),
        ]
        .join("\n")
    }
}

impl Drop for Snapshot<'_> {
    fn drop(&mut self) {
        for part in &self.parts {
            let _ = fs::remove_file(part);
        }
    }
}

/// A time since 1970 as 2026-11-17T19:52:11Z.
fn utc(seconds: u64) -> String {
    let (day, second) = (seconds / 86400, seconds % 86400);
    let (mut year, mut left) = (1970, day);
    let leap = |year: u64| (year % 4 == 0 && year % 100 != 0) || year % 400 == 0;
    while left >= 365 + u64::from(leap(year)) {
        left -= 365 + u64::from(leap(year));
        year += 1;
    }
    let february = 28 + u64::from(leap(year));
    let mut month = 1;
    for days in [31, february, 31, 30, 31, 30, 31, 31, 30, 31, 30] {
        if left < days {
            break;
        }
        left -= days;
        month += 1;
    }
    let (hour, minute) = (second / 3600, second / 60 % 60);
    let second = second % 60;
    format!(
        "{year}-{month:02}-{:02}T{hour:02}:{minute:02}:{second:02}Z",
        left + 1
    )
}

#[cfg(test)]
mod tests {
    use super::*;
    use std::os::unix::fs::{symlink, PermissionsExt};

    fn folder(name: &str) -> PathBuf {
        let path = std::env::temp_dir().join(format!("phieulakhon_{name}_{}", process::id()));
        fs::create_dir(&path).expect("a new folder");
        fs::set_permissions(&path, fs::Permissions::from_mode(0o700)).expect("ours");
        path
    }

    #[test]
    fn a_private_file_is_new_and_no_link_is_followed() {
        let folder = folder("private");
        let (victim, link, dangling) = (
            folder.join("victim"),
            folder.join("link"),
            folder.join("dangling"),
        );
        fs::write(&victim, "as it was").expect("a file");
        symlink(&victim, &link).expect("a link");
        symlink(folder.join("nowhere"), &dangling).expect("a link");
        for path in [&victim, &link, &dangling] {
            assert!(private(path).is_err(), "{path:?}");
        }
        assert_eq!(fs::read_to_string(&victim).expect("a file"), "as it was");
        assert!(!folder.join("nowhere").exists());
        let new = private(&folder.join("new")).expect("a new file");
        assert_eq!(new.metadata().expect("a file").mode() & 0o7777, 0o600);
        fs::remove_dir_all(folder).expect("ours");
    }

    #[test]
    fn a_folder_that_others_may_write_is_refused() {
        let path = folder("shared");
        assert!(Folder::open(&path).is_ok());
        for mode in [0o720, 0o702, 0o777, 0o1777] {
            fs::set_permissions(&path, fs::Permissions::from_mode(mode)).expect("ours");
            assert!(Folder::open(&path).is_err(), "{mode:o}");
        }
        fs::remove_dir(path).expect("ours");
    }

    #[test]
    fn times() {
        assert_eq!(utc(0), "1970-01-01T00:00:00Z");
        assert_eq!(utc(951_782_400), "2000-02-29T00:00:00Z");
        assert_eq!(utc(951_868_799), "2000-02-29T23:59:59Z");
        assert_eq!(utc(951_868_800), "2000-03-01T00:00:00Z");
        assert_eq!(utc(1_795_000_000), "2026-11-18T11:06:40Z");
        assert_eq!(utc(4_107_542_399), "2100-02-28T23:59:59Z");
        assert_eq!(utc(4_107_542_400), "2100-03-01T00:00:00Z");
    }
}
