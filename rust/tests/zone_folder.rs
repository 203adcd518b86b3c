//! The folder of zone files. One test, since the environment is one for all threads.

use std::fs;
use std::os::unix::fs::symlink;
use std::path::{Path, PathBuf};

use hirgwamo::{resolve_marked, Error, Mark, Schedule, Weekdays, WorkDay};
use jiff::civil::{date, time};
use jiff::Timestamp;

/// A zone file of version 2 with one type of this offset, and without a footer.
fn zone_file(offset: i32) -> Vec<u8> {
    let header = [b"TZif2".as_slice(), &[0; 15 + 4 * 4], &1_u32.to_be_bytes(), &4_u32.to_be_bytes()].concat();
    let block = [header, offset.to_be_bytes().to_vec(), vec![0, 0], b"AAA\0".to_vec()].concat();
    [block.clone(), block, b"\n\n".to_vec()].concat()
}

/// The hour of UTC at which a day of 09:00 to 17:00 begins in a zone.
fn opens(zone: &str) -> Result<i64, Error> {
    let day = WorkDay::new(time(9, 0, 0, 0), time(17, 0, 0, 0), Weekdays::ALL);
    let schedule = Schedule::builder().time_zone(zone).rule(day).build()?;
    let period = schedule.next_period(Timestamp::UNIX_EPOCH)?;
    Ok(period.start.as_second() / 3600)
}

fn unknown(name: &str) -> Result<i64, Error> {
    Err(Error::UnknownZone { name: name.into() })
}

fn unusable(name: &str) -> Result<i64, Error> {
    Err(Error::UnusableZone { name: name.into() })
}

fn write(folder: &Path, name: &str, bytes: &[u8]) {
    let path = folder.join(name);
    fs::create_dir_all(path.parent().unwrap()).unwrap();
    fs::write(path, bytes).unwrap();
}

fn fill(folder: &Path, outside: &Path) {
    write(folder, "Made/Two", &zone_file(2 * 3600));
    write(folder, "made/Three", &zone_file(3 * 3600));
    write(folder, "UTC", &zone_file(3600));
    write(folder, "posix/Made/Two", &zone_file(0));
    write(folder, "right/Made/Five", &zone_file(0));
    write(folder, "Made/posix/Four", &zone_file(4 * 3600));
    write(folder, "text", b"no zone");
    write(folder, "short", b"TZif");
    write(folder, "long", &[b"TZif".to_vec(), vec![0; 2 << 20]].concat());
    write(folder, &"n".repeat(64), &zone_file(3600));
    write(folder, &"n".repeat(65), &zone_file(3600));
    write(outside, "secret", &zone_file(6 * 3600));
    symlink("Made/Two", folder.join("link")).unwrap();
    symlink("Made", folder.join("folder")).unwrap();
    symlink("nowhere", folder.join("dangling")).unwrap();
}

fn names_in_a_folder(folder: &Path) {
    fill(folder, &folder.with_extension("outside"));
    std::env::set_var("TZDIR", folder);
    for (name, hour) in [
        ("Made/Two", 7),
        ("mADE/tWO", 7),
        ("Made/Three", 6),
        ("Made/posix/Four", 5),
        ("link", 7),
        ("UTC", 9),
        ("utc", 9),
        ("etc/UNKNOWN", 9),
    ] {
        assert_eq!(opens(name), Ok(hour), "{name}");
    }
    assert_eq!(opens(&"n".repeat(64)), Ok(8));
    assert_eq!(opens(&"n".repeat(65)), unknown(&"n".repeat(65)));
    let (outside, absolute) = (
        format!("../{}.outside/secret", folder.file_name().unwrap().to_str().unwrap()),
        format!("{}/Made/Two", folder.display()),
    );
    assert!(folder.join(&outside).exists());
    let passed_over = [
        "posix/Made/Two",
        "right/Made/Five",
        "folder/Two",
        "dangling",
        "text",
        "Made",
        "Made/",
        "Made//Two",
        "./link",
        "link\0",
    ];
    for name in passed_over.into_iter().chain([outside.as_str(), &absolute, "Europe/Berlin", "", "Made/posix/../Two"]) {
        assert_eq!(opens(name), unknown(name), "{name}");
    }
    assert_eq!(opens("short"), unusable("short"));
    assert_eq!(opens("LONG"), unusable("LONG"));
}

/// Local times are asked of the same files. The folder is the one that was filled.
fn local_times_in_a_folder() {
    let instant = |name: &str| {
        let told = resolve_marked(name, date(1970, 1, 1).at(12, 0, 0, 0))?;
        assert_eq!(told.mark, Mark::Plain);
        Ok(told.instant.as_second() / 3600)
    };
    for (name, hour) in [("Made/Two", 10), ("MADE/three", 9), ("UTC", 12)] {
        assert_eq!(instant(name), Ok(hour), "{name}");
    }
    assert_eq!(instant("short"), unusable("short"));
    assert_eq!(instant("posix/Made/Two"), unknown("posix/Made/Two"));
}

/// A folder that has no file is passed over, and so is one that is not there.
fn folders_without_files(folder: &Path) {
    let usual = PathBuf::from("/usr/share/zoneinfo/Asia/Tokyo");
    let expected = if usual.exists() { Ok(0) } else { unknown("Asia/Tokyo") };
    write(folder, "posix/Made/Two", &zone_file(0));
    fs::create_dir_all(folder.join("Empty")).unwrap();
    for tzdir in [folder.to_path_buf(), folder.join("Empty"), folder.join("absent"), PathBuf::new()] {
        std::env::set_var("TZDIR", &tzdir);
        assert_eq!(opens("Asia/Tokyo"), expected, "{tzdir:?}");
        assert_eq!(opens("Made/Two"), unknown("Made/Two"));
        assert_eq!(opens("UTC"), Ok(9));
    }
}

#[test]
fn zones_come_from_the_folder_alone() {
    let base = Path::new(env!("CARGO_TARGET_TMPDIR")).join(format!("zones-{}", std::process::id()));
    names_in_a_folder(&base.join("zones"));
    local_times_in_a_folder();
    folders_without_files(&base.join("none"));
    fs::remove_dir_all(base).unwrap();
}
