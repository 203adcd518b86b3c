#!/bin/sh
# Times a local time's second and a second's offset in two zones: our code, glibc and Python's zoneinfo, on the same times.
#
#   run.sh [COUNT [BATCHES [ROUNDS]]]
#
# COUNT local times at random (10000) in BATCHES batches (20), and that ROUNDS times in turn (5); the best batch counts, in processor time, so
# that other work on the machine disturbs little. Opening the file is counted once in a batch for our code, and not at all for the others.
# Settings from the environment: ZONEINFO, where the zone files are (/usr/share/zoneinfo); CC (cc).
# Builds crates/bench_zone/out/libbench_zone.a by `rt lib` there, unless it is newer than the code. Ends with 1 where answers differ.
set -eu
here=$(cd "$(dirname "$0")" && pwd)
root=$(cd "$here/../.." && pwd)
count=${1:-10000}
batches=${2:-20}
rounds=${3:-5}
zoneinfo=${ZONEINFO:-/usr/share/zoneinfo}
work=$(mktemp -d /tmp/bench_zone.XXXXXX)
trap 'rm -r "$work"' EXIT

crate=$root/crates/bench_zone
library=$crate/out/libbench_zone.a
if [ ! -f "$library" ] || [ -n "$(find "$root/crates" -name out -prune -o -name '*.rt' -newer "$library" -print | head -n 1)" ]; then
    (cd "$crate" && rt lib >"$work/rt.out" 2>&1) || { tail -n 20 "$work/rt.out" >&2; exit 1; }
fi
"${CC:-cc}" -O2 -Wall -o "$work/bench" "$here/bench.c" "$library"

bad=0
printf '%-18s %-10s %-7s %10s %10s %10s\n' zone years call ours glibc zoneinfo
for name in Europe/Berlin America/New_York; do
    for years in '2020 2037' '2040 2100'; do
        python3 "$here/bench.py" locals "$zoneinfo" "$name" $years "$count" >"$work/locals"
        : >"$work/ours"; : >"$work/glibc"; : >"$work/zoneinfo"
        round=0
        while [ "$round" -lt "$rounds" ]; do
            "$work/bench" "$zoneinfo/$name" "$name" "$work/locals" ours "$batches" >>"$work/ours"
            TZDIR=$zoneinfo "$work/bench" "$zoneinfo/$name" "$name" "$work/locals" glibc "$batches" >>"$work/glibc"
            python3 "$here/bench.py" zoneinfo "$zoneinfo" "$name" "$work/locals" "$batches" >>"$work/zoneinfo"
            round=$((round + 1))
        done
        for call in second offset; do
            at=''
            for who in ours glibc zoneinfo; do
                line=$(grep "^$call " "$work/$who" | sort -n -k2 | head -n 1)
                at="$at $(echo "$line" | cut -d' ' -f2)"
                sum=$(echo "$line" | cut -d' ' -f3)
                [ "$who" = ours ] && first=$sum
                [ "$sum" = "$first" ] || { echo "$name $years $call: $who differs" >&2; bad=1; }
            done
            printf '%-18s %-10s %-7s %10s %10s %10s\n' "$name" "$(echo "$years" | tr ' ' -)" "$call" $at
        done
    done
done
echo "nanoseconds of processor time for a call, best of $rounds times $batches batches of $count; load $(cut -d' ' -f1-3 /proc/loadavg), $(nproc) processors"
exit $bad
