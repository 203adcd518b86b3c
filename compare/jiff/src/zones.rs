//! A pack's zones for the original over jiff itself. jiff looks names up in a
//! folder of zone files that TZDIR names, so the pack is written to one.

use std::cell::RefCell;
use std::fs;
use std::path::{Path, PathBuf};
use std::sync::OnceLock;

use jiff::tz::TimeZone;

/// Why a name gives no zone.
#[derive(Clone, Copy, Debug, PartialEq, Eq)]
pub enum Lack {
    Unknown,
    Unusable,
}

/// A name of the pack, and the name of its file.
struct Written {
    name: Vec<u8>,
    file: String,
}

thread_local! {
    static PACK: RefCell<Vec<Written>> = const { RefCell::new(Vec::new()) };
}

/// jiff keeps to the folder that it saw first, so there is one for each run.
static FOLDER: OnceLock<PathBuf> = OnceLock::new();

/// The place of an empty file behind the records of any pack: without a file in
/// the folder jiff would leave it for the system's own.
const NO_ZONE: usize = 1024;

/// The pack's folder, which goes with this value. jiff has read the zones of a
/// schedule by the time that it is built.
pub struct Lent(&'static Path);

impl Drop for Lent {
    fn drop(&mut self) {
        let _ = fs::remove_dir_all(self.0);
    }
}

fn new_folder() -> PathBuf {
    let base = std::env::temp_dir();
    let names = (0..).map(|place| base.join(format!("pack-{}-{place}", std::process::id())));
    let mut made = names.filter(|path| !path.exists());
    made.next().expect("a name that is free")
}

/// Whether jiff finds a file of this name by the name itself: as a path it must
/// stay in the folder, and jiff passes over `posix` and `right`.
fn is_plain(name: &str) -> bool {
    let allowed = |c: char| c.is_ascii_alphanumeric() || "_+-.".contains(c);
    let mut parts = name.split('/');
    parts.clone().all(|part| !part.is_empty() && part.chars().all(allowed))
        && parts.clone().all(|part| part != "." && part != "..")
        && !parts.next().is_some_and(|first| ["posix", "right"].contains(&first))
}

/// A file's name that no book can ask for, being longer than 64 characters.
fn numbered(place: usize) -> String {
    format!("{place:065}")
}

fn write(folder: &Path, name: &str, file: &[u8]) -> std::io::Result<()> {
    let path = folder.join(name);
    fs::create_dir_all(path.parent().expect("a file in the folder"))?;
    fs::write(path, file)
}

/// Writes the names and files that `TimeZone::get` is to look in: of names that
/// differ by case alone the first. A name that can't be a file's, also where
/// another name needs a folder in its place, gives way to a number.
pub fn lend(pack: Vec<(Vec<u8>, Vec<u8>)>) -> Lent {
    let folder = FOLDER.get_or_init(new_folder);
    let _ = fs::remove_dir_all(folder);
    write(folder, &numbered(NO_ZONE), b"").expect("a folder for the zone files");
    let mut written: Vec<Written> = Vec::new();
    for (place, (name, file)) in pack.into_iter().enumerate() {
        if written.iter().any(|earlier| earlier.name.eq_ignore_ascii_case(&name)) {
            continue;
        }
        let mut path = text(&name);
        if !is_plain(&path) || write(folder, &path, &file).is_err() {
            path = numbered(place);
            write(folder, &path, &file).expect("a zone file");
        }
        written.push(Written { name, file: path });
    }
    PACK.with(|pack| *pack.borrow_mut() = written);
    std::env::set_var("TZDIR", folder);
    jiff::tz::db().reset();
    Lent(folder)
}

/// One character for each byte.
fn text(name: &[u8]) -> String {
    name.iter().copied().map(char::from).collect()
}

/// The name of the pack's file for a name, if the pack has it.
fn file_of(name: &[u8]) -> Option<String> {
    PACK.with(|pack| {
        let pack = pack.borrow();
        let found = pack.iter().find(|written| written.name.eq_ignore_ascii_case(name));
        found.map(|written| written.file.clone())
    })
}

/// The name as the original is told it. What the pack lacks is asked of jiff
/// too, which has names of its own.
pub fn asked(name: &[u8]) -> String {
    file_of(name).unwrap_or_else(|| text(name))
}

pub fn look_up(name: &[u8]) -> Result<(), Lack> {
    match TimeZone::get(&asked(name)) {
        Ok(_) => Ok(()),
        Err(_) if file_of(name).is_some() => Err(Lack::Unusable),
        Err(_) => Err(Lack::Unknown),
    }
}
