//! Zone files: where they are, and the pack of those that a book names.
//!
//! A name is looked for as jiff looks for it. It is compared with the entries of
//! the folder, one part after another, and never made part of a path itself, so that
//! `..` or a leading `/` match nothing.

use std::collections::BTreeMap;
use std::ffi::OsStr;
use std::fs::{self, DirEntry, File};
use std::io::Read;
use std::path::{Path, PathBuf};

use crate::book;

const SETTING: &str = "TZDIR";
const FOLDERS: [&str; 3] = ["/usr/share/zoneinfo", "/usr/share/lib/zoneinfo", "/etc/zoneinfo"];
/// Folders of copies directly below a zone folder, which jiff passes over.
const COPIES: [&str; 2] = ["posix", "right"];
const MAGIC: &[u8] = b"TZif";
/// More than this of a file is not read. Zone files of the tz database have a few
/// thousand bytes.
const FILE_MAX: usize = 1 << 20;

/// Names that jiff has built in, and does not look for in its folder. Both have the
/// offset 0.
const BUILT_IN: [&str; 2] = ["UTC", "Etc/Unknown"];

/// A zone file of the offset 0: two headers of version 2, each before a block of
/// one type and no transition, and the footer `UTC0`.
const UTC_FILE: &[u8] = b"TZif2\0\0\0\0\0\0\0\0\0\0\0\0\0\0\0\
    \0\0\0\0\0\0\0\0\0\0\0\0\0\0\0\0\0\0\0\x01\0\0\0\x04\
    \0\0\0\0\0\0UTC\0\
    TZif2\0\0\0\0\0\0\0\0\0\0\0\0\0\0\0\
    \0\0\0\0\0\0\0\0\0\0\0\0\0\0\0\0\0\0\0\x01\0\0\0\x04\
    \0\0\0\0\0\0UTC\0\
    \nUTC0\n";

/// The zone file of a name that a book can have; `None` where there is none.
pub(crate) fn file(name: &str) -> Option<Vec<u8>> {
    if !book::can_be_written(name) {
        return None;
    }
    if is_built_in(name) {
        return Some(UTC_FILE.to_vec());
    }
    zone_file(&zone_folder()?, name)
}

/// A pack of those of the named zones that there are, each once; `None` where it is
/// too long for its directory.
pub(crate) fn pack<'a>(names: impl Iterator<Item = &'a str>) -> Option<Vec<u8>> {
    let asked: BTreeMap<String, &str> =
        names.filter(|name| book::can_be_written(name)).map(|name| (name.to_ascii_lowercase(), name)).collect();
    let mut folder = None;
    let mut zones = Vec::new();
    for name in asked.into_values() {
        let file = if is_built_in(name) {
            Some(UTC_FILE.to_vec())
        } else {
            folder.get_or_insert_with(zone_folder).as_deref().and_then(|folder| zone_file(folder, name))
        };
        zones.extend(file.map(|file| record(name, &file)));
    }
    book::join(zones.iter().map(Vec::as_slice))
}

fn is_built_in(name: &str) -> bool {
    BUILT_IN.iter().any(|built_in| built_in.eq_ignore_ascii_case(name))
}

/// A record of a pack.
fn record(name: &str, file: &[u8]) -> Vec<u8> {
    let length = u8::try_from(name.len()).expect("a name in a pack is short");
    [&[length], name.as_bytes(), file].concat()
}

/// The folder that TZDIR names, or else the first of the usual ones; one that has
/// no file is passed over.
fn zone_folder() -> Option<PathBuf> {
    let told = std::env::var_os(SETTING).map(PathBuf::from);
    let usual = FOLDERS.iter().map(PathBuf::from);
    told.into_iter().chain(usual).find(|folder| has_file(folder, true))
}

/// Whether there is a file in a folder or below it.
fn has_file(folder: &Path, top: bool) -> bool {
    entries(folder, top).any(|entry| !is_folder(&entry) || has_file(&entry.path(), false))
}

/// What is in a folder. `top` tells that it is the zone folder itself.
fn entries(folder: &Path, top: bool) -> impl Iterator<Item = DirEntry> {
    let all = fs::read_dir(folder).into_iter().flatten().flatten();
    all.filter(move |entry| {
        !(top && is_folder(entry) && COPIES.iter().any(|copy| entry.file_name() == OsStr::new(copy)))
    })
}

/// Whether an entry is a folder; a link to one is not, as jiff has it.
fn is_folder(entry: &DirEntry) -> bool {
    entry.file_type().is_ok_and(|kind| kind.is_dir())
}

/// The bytes of the zone file of this name in the zone folder.
fn zone_file(folder: &Path, name: &str) -> Option<Vec<u8>> {
    read(&find(folder, name, true)?)
}

/// The path of a name, without regard to the case of ASCII letters. Of names that
/// differ by case alone the first by their bytes counts.
fn find(folder: &Path, name: &str, top: bool) -> Option<PathBuf> {
    let (part, rest) = match name.split_once('/') {
        Some((part, rest)) => (part, Some(rest)),
        None => (name, None),
    };
    let mut matching: Vec<DirEntry> =
        entries(folder, top).filter(|entry| entry.file_name().eq_ignore_ascii_case(part)).collect();
    matching.sort_by_key(DirEntry::file_name);
    matching.into_iter().find_map(|entry| match rest {
        Some(rest) if is_folder(&entry) => find(&entry.path(), rest, false),
        None if !is_folder(&entry) => Some(entry.path()),
        _ => None,
    })
}

/// A regular file that begins as zone files do. One that is too long to be read is
/// cut down to that beginning, which the proved code refuses as not usable.
fn read(path: &Path) -> Option<Vec<u8>> {
    if !fs::metadata(path).ok()?.is_file() {
        return None;
    }
    let mut bytes = Vec::new();
    let most = u64::try_from(FILE_MAX).ok()?;
    File::open(path).ok()?.take(most + 1).read_to_end(&mut bytes).ok()?;
    if bytes.len() > FILE_MAX {
        bytes.truncate(MAGIC.len());
    }
    bytes.starts_with(MAGIC).then_some(bytes)
}

#[cfg(test)]
mod tests {
    use super::*;

    /// The built-in names do not ask for the zone folder, and each spelling of a name
    /// counts once.
    #[test]
    fn built_in_zones_are_packed() {
        let expected = [b"\0\0\0\x01\0\0\0\x0C\0\0\0\x76\x03UTC", UTC_FILE].concat();
        assert_eq!(pack(["UTC", "UTC"].into_iter()), Some(expected));
        assert_eq!(pack([].into_iter()), Some(vec![0; 4]));
        assert_eq!(pack(["utc", "etc/unknown", "Utc"].into_iter()).map(|pack| pack[3]), Some(2));
    }

    #[test]
    fn names_that_no_pack_can_have_are_left_out() {
        assert_eq!(pack(["", &"n".repeat(65)].into_iter()), Some(vec![0; 4]));
    }

    #[test]
    fn built_in_zones_have_files() {
        assert_eq!(file("utc").as_deref(), Some(UTC_FILE));
        assert_eq!([file(""), file(&"n".repeat(65))], [None, None]);
    }
}
