#!/bin/sh
# Compares zone files over jiff itself with document 01's reading of them.
#
#   zones_jiff.sh rows                 the inputs of docs/DIFFERENCES.md
#   zones_jiff.sh database             every file of the tz database
#   zones_jiff.sh made SEED COUNT [FAMILY]
#                                      made files that both are meant to take, of
#                                      a mix or of a family of made_zones.py
#   zones_jiff.sh taken COUNT          which files are taken and which refused
#
# Settings from the environment:
#   WORK      where the builds go (else a new folder in /tmp)
#   JIFF      where jiff is, as jiff.sh unpacks it (if not set WORK/jiff)
#   ZONEINFO  where real zone files are (if not set /usr/share/zoneinfo)
#   CALLS     the program test_zone_calls, which is asked too if set
#   CLOCK     the program clock, which is asked too by `rows` if set
#
# Ends with 1 where zones_jiff.py or differences.py does, with 3 if jiff can't
# be had.
set -eu

usage() {
    echo "usage: zones_jiff.sh rows | database | made SEED COUNT [FAMILY] | taken COUNT" >&2
    exit 2
}
here=$(cd "$(dirname "$0")" && pwd)
part=${1:-}
case $part-$# in
rows-1 | database-1 | made-3 | made-4 | taken-2) ;;
*) usage ;;
esac
work=${WORK:-$(mktemp -d /tmp/compare.XXXXXX)}
real=$("$here/jiff/build.sh" "$work")

if [ "$part" = rows ]; then
    "$here/jiff/build.sh" "$work" release >/dev/null
    set -- "$here/differences.py" "$(dirname "$real")" --document "$here/../docs/DIFFERENCES.md"
    if [ -n "${CLOCK:-}" ]; then
        set -- "$@" --clock "$CLOCK"
    fi
else
    set -- "$here/zones_jiff.py" "$real/zone" "$@" --zoneinfo "${ZONEINFO:-/usr/share/zoneinfo}"
fi
if [ -n "${CALLS:-}" ]; then
    set -- "$@" --calls "$CALLS"
fi
exec python3 "$@"
