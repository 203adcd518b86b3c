//! Which names of zones both crates take: all that is below a folder, and names
//! that are nearly such.

use std::collections::BTreeSet;
use std::fs;
use std::path::Path;

use hirgwamo::Query;
use jiff::civil::Time;
use jiff::Timestamp;

use crate::compared::Compared;
use crate::plan::{Days, Plan, PlanRule};
use crate::sides::{original, ours};

/// Links to folders are followed, so that there must be an end.
const DEPTH: usize = 4;
const NAME_MAX: usize = 64;
/// 2026-01-15, 2026-07-15 and 1941-07-15, at 00:00Z.
const INSTANTS: [Timestamp; 3] = [
    Timestamp::constant(1_768_435_200, 0),
    Timestamp::constant(1_784_073_600, 0),
    Timestamp::constant(-898_560_000, 0),
];

/// The path of each file and folder below a folder, as a name.
fn below(folder: &Path, prefix: &str, depth: usize, names: &mut BTreeSet<String>) {
    for entry in fs::read_dir(folder).into_iter().flatten().flatten() {
        let name = format!("{prefix}{}", entry.file_name().to_string_lossy());
        if depth > 0 && entry.path().is_dir() {
            below(&entry.path(), &format!("{name}/"), depth - 1, names);
        }
        names.insert(name);
    }
}

/// A name and what it may be taken for.
fn variants(folder: &Path, name: &str) -> Vec<String> {
    let whole = folder.display();
    let last = folder.file_name().unwrap_or_default().to_string_lossy();
    vec![
        name.to_string(),
        name.to_ascii_uppercase(),
        name.to_ascii_lowercase(),
        format!("/{name}"),
        format!("./{name}"),
        format!("{name}/"),
        format!("{name}/."),
        name.replace('/', "//"),
        name.replace('/', "\\"),
        format!("{name}\0"),
        format!(" {name}"),
        format!("{name}x"),
        format!("posix/{name}"),
        format!("right/{name}"),
        format!("../{last}/{name}"),
        format!("{whole}/{name}"),
    ]
}

fn plan(name: &str) -> Plan {
    let times = [Time::constant(9, 0, 0, 0), Time::constant(17, 0, 0, 0)];
    Plan { zone: Some(name.to_string()), rules: vec![PlanRule::Work(times, Days::MonToFri, None)] }
}

/// Compares all names; tells whether they are taken alike, but for the differences
/// that are known, which are printed with their names.
pub fn run(folder: &Path) -> bool {
    let mut names = BTreeSet::new();
    below(folder, "", DEPTH, &mut names);
    let asked: BTreeSet<String> = names.iter().flat_map(|name| variants(folder, name)).collect();
    let mut compared = Compared::default();
    let mut known = BTreeSet::new();
    for name in &asked {
        compare(name, &mut compared, &mut known);
    }
    for line in known {
        println!("known difference: {line}");
    }
    compared.end() && compared.number("names taken by both") > 0 && compared.number("names unknown to both") > 0
}

fn compare(name: &str, compared: &mut Compared, known: &mut BTreeSet<String>) {
    let lower = name.to_ascii_lowercase();
    match (original::build(&plan(name)), ours::build(&plan(name))) {
        (Ok(theirs), Ok(mine)) => {
            compared.count("names taken by both", 1);
            for instant in INSTANTS {
                let query = Query::Next(instant);
                compared
                    .same(&original::ask(&theirs, query), &ours::ask(&mine, query), || format!("{name:?} {query:?}"));
            }
        }
        (Err(theirs), Err(mine)) if theirs == mine => compared.count("names unknown to both", 1),
        (theirs, Err(mine))
            if mine
                == format!("UnusableZone {{ name: {name:?} }}: the zone file of time zone `{name}` is not usable") =>
        {
            let taken = if theirs.is_ok() { "taken by jiff" } else { "unknown to jiff" };
            known.insert(format!("{lower} is {taken}, and not usable here"));
        }
        (Ok(_), Err(mine)) if name.len() > NAME_MAX && mine.starts_with("UnknownZone") => {
            known.insert(format!("{lower} is taken by jiff, and too long here"));
        }
        (theirs, mine) => {
            let told = [theirs.err(), mine.err()];
            compared.wrong(format!("{name:?}: original and ours: {told:?} (none: taken)"));
        }
    }
}
