#!/bin/sh
# Compares the second implementation, the original Rust and, if given, a
# program on generated cases.
#
#   run.sh SEED COUNT [PROGRAM [ARGUMENT..]]
#
# PROGRAM is run in a case's folder as `PROGRAM ARGUMENT.. book.bin zones.bin`
# with the query lines on standard input. Settings from the environment:
#   WORK      where the cases and the Rust's build go (else a new folder in /tmp)
#   COUNTS    how PROGRAM's window counts are compared: `bounds` (between the
#             least and the most, if not set) or `exact` (equal to the least)
#   FAMILY    the family of generate.py that all cases are of (if not set a mix)
#   ZONEINFO  where real zone files are (if not set /usr/share/zoneinfo)
#   PATIENCE  seconds for each run of an implementation on a case (600)
#
# The answers are compared line by line: the Rust's up to the count, which it
# does not report. Folders of cases that agree are removed, the others kept.
# Ends with 1 if a line differs.
set -eu

if [ $# -lt 2 ]; then
    echo "usage: run.sh SEED COUNT [PROGRAM [ARGUMENT..]]" >&2
    exit 2
fi
seed=$1
count=$2
shift 2
here=$(cd "$(dirname "$0")" && pwd)
work=${WORK:-$(mktemp -d /tmp/compare.XXXXXX)}
counts=${COUNTS:-bounds}
patience=${PATIENCE:-600}
cases=$work/cases-$seed
mkdir -p "$cases"
cases=$(cd "$cases" && pwd)

# A program told by a relative path is meant from here, not from the case.
if [ $# -gt 0 ]; then
    case $1 in
    /*) ;;
    */*)
        program=$PWD/$1
        shift
        set -- "$program" "$@"
        ;;
    esac
fi

export CARGO_TARGET_DIR="$work/target"
cargo build --quiet --offline --profile checked --manifest-path "$here/rust/Cargo.toml"
rust=$CARGO_TARGET_DIR/checked/answer
case $rust in /*) ;; *) rust=$PWD/$rust ;; esac

only=
if [ -n "${FAMILY:-}" ]; then
    only="--family $FAMILY"
fi
# A family's name has no spaces.
python3 "$here/generate.py" "$seed" "$count" "$cases" --zoneinfo "${ZONEINFO:-/usr/share/zoneinfo}" $only

# answer FILE-OF-LINES FILE-OF-ANSWERS COMMAND..: an answer that fails or takes
# too long ends with a line that agrees with none.
answer() {
    lines=$1
    out=$2
    shift 2
    timeout "$patience" "$@" <"$lines" >"$out" || echo "ended with $?" >>"$out"
}

for folder in "$cases"/*/; do
    cd "$folder"
    answer queries.txt second.txt python3 "$here/second.py" book.bin zones.bin --bounds
    answer queries.txt rust.txt "$rust" book.bin zones.bin
    answer listing.txt second-list.txt python3 "$here/second.py" book.bin zones.bin --listing
    answer listing.txt rust-list.txt "$rust" book.bin zones.bin --listing
    if [ $# -gt 0 ]; then
        answer queries.txt program.txt "$@" book.bin zones.bin
    fi
done
cd "$cases"
python3 "$here/agree.py" "$cases" "$counts"
