#!/bin/sh
# Times every call: our code, the original workclock over jiff, and the original over the stand-in for jiff, on the same books and questions.
#
#   run.sh [MILLISECONDS [BOOK [CALL]]]
#   run.sh part [MILLISECONDS [BOOK [CALL]]]
#   run.sh hardest [BOOK]
#   run.sh walks
#
# MILLISECONDS (20) of processor time for each row of the table and each that is timed, in each of eight rounds; the best batch counts, so that other
# work on the machine disturbs little. BOOK and CALL choose rows. Settings from the environment: ZONEINFO, where the zone files are (/usr/share/zoneinfo);
# JIFF, a folder that has jiff or where it is to be brought (target/jiff; compare/jiff.sh). Without jiff the stand-in alone is timed beside ours.
# Builds crates/bench_clock/out/libbench_clock.a by `rt lib` there, unless it is newer than the code, and target/part/libhirgwamo.a by `make`. Ends with 1
# where answers differ.
#
# The second form times the functions that other languages link, from libhirgwamo.a: many queries in one call, and one call for each question. Beside them
# it times the calls of the first form and the original over jiff, on a schedule that is built before and on one for each call; without jiff these columns
# are left out. It ends with 1 where answers differ, and where many queries in one call take more than a tenth longer for each than the calls of the first
# form. A second table has a loop over days in Python (loop.py), our own, since no package of Python that computes working hours could be had.
#
# The third form times the hardest stretch of a log beside the plain form, both by our code; jiff has no part in it. The fourth has gdb count the walks
# that one such call makes; it ends with 1 where they are more than two for each of the log's 4,096 runs, and with 3 where there is no gdb.
set -eu
here=$(cd "$(dirname "$0")" && pwd)
root=$(cd "$here/../.." && pwd)
work=$(mktemp -d /tmp/bench_clock.XXXXXX)
trap 'rm -r "$work"' EXIT
# What compare/jiff.sh ends with where jiff can't be had, and this where there is no gdb.
unreachable=3
most_walks=8192
clock=$root/target/bench_clock/release/clock
zoneinfo=${ZONEINFO:-/usr/share/zoneinfo}

crate=$root/crates/bench_clock
library=$crate/out/libbench_clock.a
if [ ! -f "$library" ] || [ -n "$(find "$root/crates" -name out -prune -o -name '*.rt' -newer "$library" -print | head -n 1)" ]; then
    (cd "$crate" && rt lib >"$work/rt.out" 2>&1) || { tail -n 20 "$work/rt.out" >&2; exit 1; }
fi
part=$root/target/part
make -C "$root" >"$work/make.out" 2>&1 || { tail -n 20 "$work/make.out" >&2; exit 1; }

build() {
    cargo build --quiet --release --offline --target-dir "$root/target/bench_clock" "$@"
}
build_alone() {
    build --manifest-path "$here/Cargo.toml"
}
build_with_jiff() {
    # As compare/jiff/build.sh does: the original's sources and the unpacked crates, by path.
    mkdir -p "$root/target/bench_clock_jiff" "$root/target/real/jiff"
    cp "$here/jiff.toml" "$root/target/bench_clock_jiff/Cargo.toml"
    cp "$root/compare/jiff/Cargo.toml" "$root/target/real/jiff/Cargo.toml"
    ln -sfn "$root/compare/jiff/src" "$root/target/real/jiff/src"
    ln -sfn "$root/compare/rust" "$root/target/real/rust"
    ln -sfn "$(cd "$jiff" && pwd)/usr/share/cargo/registry" "$root/target/registry"
    build --manifest-path "$root/target/bench_clock_jiff/Cargo.toml"
}
# A walk is a call of walk_between::between_into, which the compiler leaves as a function of its own in each archive; such a call is made by
# libbench_clock.a alone.
count_walks() {
    bad=0
    for book in office-berlin-30 all-limits; do
        for days in 400 30; do
            gdb -q -batch -ex 'break walk_between::between_into' -ex 'ignore 1 1000000' -ex run -ex 'info breakpoints' \
                --args "$clock" hardest "$zoneinfo" "$book" "$days" >"$work/gdb" 2>&1
            walks=$(sed -n 's/.*already hit \([0-9]*\) times.*/\1/p' "$work/gdb" | head -n 1)
            echo "$book, windows of $days days: ${walks:-no} walks"
            [ "${walks:-0}" -gt 0 ] && [ "$walks" -le "$most_walks" ] || bad=1
        done
    done
    exit $bad
}
# time_loop [BOOK [CALL]]: the second table of `part`. Python loads a shared library.
time_loop() {
    if ! command -v python3 >"$work/python"; then
        echo "python3: none; the loop over days is left out"
        return
    fi
    "$clock" write "$work/books" "$zoneinfo" "$@" || return
    python3 "$here/loop.py" "$work/books" "$part/libhirgwamo.so.1" "$zoneinfo" "$milliseconds"
}
jiff=${JIFF:-$root/target/jiff}
form=calls
case ${1:-} in part | hardest | walks)
    form=$1
    shift
    ;;
esac
note="Nanoseconds of processor time for one, best of several batches. Buffers were warm: a batch repeats one question on the same book and pack."
if [ "$form" = walks ]; then
    command -v gdb >"$work/gdb" || { echo "run.sh: there is no gdb" >&2; exit "$unreachable"; }
    build_alone
    count_walks
elif [ "$form" = hardest ]; then
    build_alone
    note="Milliseconds of processor time: the plain form once, of hardest the best of ten calls."
else
    milliseconds=${1:-20}
    [ $# = 0 ] || shift
    came=0
    "$root/compare/jiff.sh" "$jiff" >"$work/jiff" || came=$?
    if [ "$came" = 0 ]; then
        build_with_jiff
        echo "jiff: $(sed 1d "$work/jiff" | paste -s -d ',' | sed 's/,/, /')"
    elif [ "$came" = "$unreachable" ]; then
        build_alone
        echo "jiff: none; what is timed over it is left out"
    else
        exit "$came"
    fi
fi

echo "load before: $(cut -d' ' -f1-3 /proc/loadavg)"
bad=0
case $form in
hardest) "$clock" hardest "$zoneinfo" "$@" || bad=$? ;;
part)
    "$clock" part "$milliseconds" "$zoneinfo" "$@" || bad=$?
    # 2 is for words that it does not know.
    [ "$bad" = 2 ] || time_loop "$@" || bad=$?
    ;;
*) "$clock" "$milliseconds" "$zoneinfo" "$@" || bad=$? ;;
esac
echo "$note"
echo "load after: $(cut -d' ' -f1-3 /proc/loadavg); $(nproc) processors, $(sed -n 's/^model name[^:]*: //p' /proc/cpuinfo | head -n 1)"
exit $bad
