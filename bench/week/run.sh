#!/bin/sh
# Times the working time of one week: our code, and the original workclock over the stand-in for jiff, on the same books and weeks.
#
#   run.sh [COUNT [BATCHES]]
#
# COUNT weeks at random (200) in BATCHES batches (200); the best batch counts, in processor time, so that other work on the machine disturbs
# little. Building the book is counted once in a batch, for both.
# Settings from the environment: ZONEINFO, where the zone files are (/usr/share/zoneinfo).
# Builds crates/bench_week/out/libbench_week.a by `rt lib` there, unless it is newer than the code. Ends with 1 where answers differ.
set -eu
here=$(cd "$(dirname "$0")" && pwd)
root=$(cd "$here/../.." && pwd)
count=${1:-200}
batches=${2:-200}
work=$(mktemp -d /tmp/bench_week.XXXXXX)
trap 'rm -r "$work"' EXIT

crate=$root/crates/bench_week
library=$crate/out/libbench_week.a
if [ ! -f "$library" ] || [ -n "$(find "$root/crates" -name out -prune -o -name '*.rt' -newer "$library" -print | head -n 1)" ]; then
    (cd "$crate" && rt lib >"$work/rt.out" 2>&1) || { tail -n 20 "$work/rt.out" >&2; exit 1; }
fi
cargo build --quiet --release --offline --manifest-path "$here/Cargo.toml" --target-dir "$root/target/bench_week"
bad=0
"$root/target/bench_week/release/week" "$count" "$batches" "${ZONEINFO:-/usr/share/zoneinfo}" || bad=$?
echo "nanoseconds of processor time for a week, best of $batches batches of $count; load $(cut -d' ' -f1-3 /proc/loadavg), $(nproc) processors"
exit $bad
