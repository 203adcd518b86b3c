#!/bin/sh
# Makes the stored cases that the original over jiff itself has answered, for the
# gate's program test_replay.
#
#   store_jiff.sh OUT
#
# OUT gets cases-11.bin and those behind it; the ones before hold other cases
# (docs/CASES.md). The same zone files and the same jiff give the same bytes.
# Settings from the environment:
#   WORK      where the cases and the builds go (else a new folder in /tmp)
#   JIFF      where jiff is, as jiff.sh unpacks it (if not set WORK/jiff)
#   ZONEINFO  where real zone files are (if not set /usr/share/zoneinfo)
# Ends with 3 if jiff can't be had.
set -eu

DATABASE_SEED=17101
DATABASE_CASES=150
DATABASE_BYTES=400000
MADE_SEED=17102
MADE_CASES=300
MADE_BYTES=240000
FIRST=11

if [ $# -ne 1 ]; then
    echo "usage: store_jiff.sh OUT" >&2
    exit 2
fi
here=$(cd "$(dirname "$0")" && pwd)
work=${WORK:-$(mktemp -d /tmp/compare.XXXXXX)}
mkdir -p "$work"
work=$(cd "$work" && pwd)
answer=$("$here/jiff/build.sh" "$work")/answer
zoneinfo=${ZONEINFO:-/usr/share/zoneinfo}

rm -rf "$work/store"
mkdir -p "$work/store"
python3 "$here/generate.py" "$DATABASE_SEED" "$DATABASE_CASES" "$work/store/database" --zoneinfo "$zoneinfo" --family database
python3 "$here/generate.py" "$MADE_SEED" "$MADE_CASES" "$work/store/made" --zoneinfo "$zoneinfo" --whole
python3 "$here/store_jiff.py" "$answer" "$DATABASE_BYTES" "$work/store/database" "$work/store/chosen-database"
python3 "$here/store_jiff.py" "$answer" "$MADE_BYTES" "$work/store/made" "$work/store/chosen-made"
python3 "$here/../tools/vector_cases.py" --first "$FIRST" "$work/store/chosen-database" "$work/store/chosen-made" "$1"
