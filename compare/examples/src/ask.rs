//! Books, packs and query lines: what the program is asked, and its answers.

use std::fs;
use std::io::Write;
use std::process::{Command, Stdio};
use std::sync::atomic::{AtomicUsize, Ordering};

/// A book and its pack.
#[derive(Clone, Debug)]
pub(crate) struct Case {
    pub(crate) book: Vec<u8>,
    pack: Vec<u8>,
}

/// A refusal's number and place.
#[derive(Clone, Copy, Debug, PartialEq, Eq)]
pub(crate) struct Refusal(pub(crate) u8, pub(crate) usize);

/// A question that no schedule refuses: so its refusals are those of building.
const NOTHING: &str = "between 0 0 0 0";

fn setting(name: &str) -> String {
    std::env::var(name).unwrap_or_else(|_| panic!("{name} is not set"))
}

/// A directory and its records.
fn join(records: &[Vec<u8>]) -> Vec<u8> {
    let four = |number: usize| u32::try_from(number).expect("a short file").to_be_bytes();
    let mut bytes = four(records.len()).to_vec();
    let mut at = 4 + 8 * records.len();
    for record in records {
        bytes.extend([four(at), four(record.len())].concat());
        at += record.len();
    }
    bytes.extend(records.concat());
    bytes
}

/// The name of a record that the book has at a place.
pub(crate) fn name_at(book: &[u8], place: usize) -> String {
    let length = usize::from(book[place + 1]);
    String::from_utf8_lossy(&book[place + 2..place + 2 + length]).into_owned()
}

/// A zone file under its name, as a pack has it; `None` where there is none.
fn zone(name: &str) -> Option<Vec<u8>> {
    let file = fs::read(format!("{}/{name}", setting("ZONEINFO"))).ok()?;
    let length = u8::try_from(name.len()).expect("a short name");
    Some([vec![length], name.as_bytes().to_vec(), file].concat())
}

impl Case {
    /// A book of these records, over a pack with those zones that they name.
    pub(crate) fn new(records: &[Vec<u8>]) -> Case {
        let names = records.iter().map(|record| name_at(record, 0));
        let zones: Vec<Vec<u8>> = names.filter(|name| !name.is_empty()).filter_map(|name| zone(&name)).collect();
        Case {
            book: join(records),
            pack: join(&zones),
        }
    }

    /// The numbers of the program's answer to a line.
    pub(crate) fn ask(&self, line: &str) -> Result<Vec<i64>, Refusal> {
        let answer = run(&self.book, &self.pack, line);
        let mut fields = answer.split(' ');
        let word = fields.next();
        let numbers: Vec<i64> = fields.map(|field| field.parse().expect("a number")).collect();
        match (word, &numbers[..]) {
            (Some("ok"), _) => Ok(numbers),
            (Some("no"), &[number, place]) => Err(Refusal(number as u8, place as usize)),
            _ => panic!("{line}: {answer}"),
        }
    }

    /// Whether the book builds.
    pub(crate) fn builds(&self) -> Result<(), Refusal> {
        self.ask(NOTHING).map(|numbers| assert_eq!(numbers, [0, 0, 0]))
    }
}

/// The program's answer in a folder of its own, which is noted in the file that
/// ASKED names.
fn run(book: &[u8], pack: &[u8], line: &str) -> String {
    static COUNT: AtomicUsize = AtomicUsize::new(0);
    let place = COUNT.fetch_add(1, Ordering::Relaxed);
    let process = std::process::id();
    let folder = std::env::temp_dir().join(format!("example-{process}-{place}"));
    fs::create_dir(&folder).expect("a new folder");
    fs::write(folder.join("book.bin"), book).expect("a book");
    fs::write(folder.join("zones.bin"), pack).expect("a pack");
    let command = format!("{} book.bin zones.bin", setting("PROGRAM"));
    let mut child = Command::new("sh")
        .args(["-c", &command])
        .current_dir(&folder)
        .stdin(Stdio::piped())
        .stdout(Stdio::piped())
        .spawn()
        .expect("the program");
    let mut input = child.stdin.take().expect("its input");
    writeln!(input, "{line}").expect("its input");
    drop(input);
    let told = child.wait_with_output().expect("its answer").stdout;
    fs::remove_dir_all(&folder).expect("the folder");
    let answer = String::from_utf8(told).expect("a text").trim_end().to_string();
    let mut notes = fs::OpenOptions::new().append(true).create(true).open(setting("ASKED")).expect("notes");
    notes.write_all(format!("{process} {line}: {answer}\n").as_bytes()).expect("notes");
    answer
}
