//! Local times near the changes of a zone: jiff says too whether one is skipped or
//! comes twice.

use hirgwamo::{resolve_marked, Mark, MarkedInstant};
use jiff::civil::DateTime;
use jiff::tz::{AmbiguousOffset, TimeZone};
use jiff::{SignedDuration, Timestamp};

use crate::compared::Compared;

/// How far from what the clock shows just before an instant the local times lie.
const MINUTES: [i64; 7] = [-60, -30, 0, 15, 30, 60, 90];

/// What jiff says of a local time.
fn expected(zone: &TimeZone, local: DateTime) -> MarkedInstant {
    let ambiguous = zone.to_ambiguous_timestamp(local);
    let mark = match ambiguous.offset() {
        AmbiguousOffset::Unambiguous { .. } => Mark::Plain,
        AmbiguousOffset::Gap { .. } => Mark::Skipped,
        AmbiguousOffset::Fold { .. } => Mark::Repeated,
    };
    match ambiguous.compatible() {
        Ok(instant) => MarkedInstant { instant, mark },
        Err(_) if local.year() < 0 => MarkedInstant { instant: Timestamp::MIN, mark: Mark::Beyond },
        Err(_) => MarkedInstant { instant: Timestamp::MAX, mark: Mark::Beyond },
    }
}

/// Compares the local times near some instants, among them changes of the zone.
pub fn compare(name: &str, abouts: &[Timestamp], compared: &mut Compared) {
    let zone = TimeZone::get(name).expect("a zone of the database");
    for about in abouts {
        let before = about.checked_sub(SignedDuration::from_secs(1)).unwrap_or(*about);
        for minutes in MINUTES.map(SignedDuration::from_mins) {
            let Ok(local) = zone.to_datetime(before).checked_add(minutes) else { continue };
            let given = resolve_marked(name, local).expect("a zone that both take");
            compared.count(
                match given.mark {
                    Mark::Plain => "local times: plain",
                    Mark::Repeated => "local times: repeated",
                    Mark::Skipped => "local times: skipped",
                    Mark::Beyond => "local times: beyond the range",
                },
                1,
            );
            compared.same(&expected(&zone, local), &given, || format!("{name} {local}"));
        }
    }
}
