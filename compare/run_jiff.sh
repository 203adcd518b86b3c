#!/bin/sh
# Compares the original over jiff itself with the original over the stand-in
# and, if given, a program, on generated cases.
#
#   run_jiff.sh SEED COUNT FAMILY [PROGRAM [ARGUMENT..]]
#
# FAMILY is a family of generate.py (`database`: all zones of the tz database,
# `wide`: rule times that version 3 alone has), or `all` for a mix of those that
# run.sh runs, with zone files whose first data block jiff takes. PROGRAM is run
# as by run.sh.
# Settings from the environment:
#   WORK      where the cases and the Rust's builds go (else a new folder in /tmp)
#   JIFF      where jiff is, as jiff.sh unpacks it (if not set WORK/jiff)
#   ZONEINFO  where real zone files are (if not set /usr/share/zoneinfo)
#   PATIENCE  seconds for each run of an implementation on a case (600)
#   LISTS     out/test_replay_lists as `rt run` in crates/test_replay_lists
#             builds it: then our listing too is held to that of the original
#             over jiff (lists_jiff.py)
#
# The answers are compared line by line but for the window count, which the
# original does not report; the listing's with the stand-in's. All lines that
# differ are written to WORK/differences-SEED.txt with their causes, and counted
# by cause (explain_jiff.py says what explains a line). Folders of cases that
# agree are removed, the others kept. Ends with 1 if a line is not explained or
# our listing differs, with 3 if jiff can't be had.
set -eu

if [ $# -lt 3 ]; then
    echo "usage: run_jiff.sh SEED COUNT FAMILY [PROGRAM [ARGUMENT..]]" >&2
    exit 2
fi
seed=$1
count=$2
family=$3
shift 3
here=$(cd "$(dirname "$0")" && pwd)
work=${WORK:-$(mktemp -d /tmp/compare.XXXXXX)}
patience=${PATIENCE:-600}
cases=$work/jiff-cases-$seed
mkdir -p "$cases"
work=$(cd "$work" && pwd)
cases=$(cd "$cases" && pwd)

case ${LISTS:-/} in /*) ;; *) LISTS=$PWD/$LISTS ;; esac
# A program told by a relative path is meant from here, not from the case.
if [ $# -gt 0 ]; then
    case $1 in
    /*) ;;
    */*)
        program=$PWD/$1
        shift
        set -- "$program" "$@"
        ;;
    esac
fi

drivers=$("$here/jiff/build.sh" "$work")
CARGO_TARGET_DIR="$work/target" cargo build --quiet --offline --profile checked --manifest-path "$here/rust/Cargo.toml"
standin=$work/target/checked/answer

only=
if [ "$family" != all ]; then
    only="--family $family"
fi
# A family's name has no spaces.
python3 "$here/generate.py" "$seed" "$count" "$cases" --zoneinfo "${ZONEINFO:-/usr/share/zoneinfo}" --whole $only

# answer FILE-OF-LINES FILE-OF-ANSWERS COMMAND..: an answer that fails or takes
# too long ends with a line that agrees with none.
answer() {
    lines=$1
    out=$2
    shift 2
    timeout "$patience" "$@" <"$lines" >"$out" 2>>errors.txt || echo "ended with $?" >>"$out"
}

for folder in "$cases"/*/; do
    cd "$folder"
    answer queries.txt real.txt "$drivers/answer" book.bin zones.bin
    answer queries.txt standin.txt "$standin" book.bin zones.bin
    answer listing.txt real-list.txt "$drivers/answer" book.bin zones.bin --listing
    answer listing.txt standin-list.txt "$standin" book.bin zones.bin --listing
    if [ $# -gt 0 ]; then
        answer queries.txt program.txt "$@" book.bin zones.bin
    fi
done
cd "$work"
differ=0
if [ -n "${LISTS:-}" ]; then
    python3 "$here/lists_jiff.py" "$cases" "$LISTS" || differ=1
fi
python3 "$here/agree_jiff.py" "$cases" "$work/differences-$seed.txt" "$drivers/zone" || differ=1
exit $differ
