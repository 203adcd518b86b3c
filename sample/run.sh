#!/bin/sh
# Builds the clock and asks it about the sample calendar: Monday to Friday 08:00 to 18:00 in Europe/Berlin, the site's holidays out (make.py).
#
#   sample/run.sh [PROGRAM]
#
# PROGRAM is a clock that is built already. Without it `rt run` in crates/clock proves and builds one, as crates/clock/out/clock, which takes many minutes
# on a new machine, and seconds afterwards; the crates that are proved are counted meanwhile.
# Dates are turned into words by GNU date, with Berlin's rule of today; the clock itself reads the zone from zones.bin.
set -eu
here=$(cd "$(dirname "$0")" && pwd)
root=$(cd "$here/.." && pwd)
program=${1:-}

# Proves and builds the clock; shows how many of its crates were proved anew, and what `rt` wrote where it fails. `rt run` also runs the program, here with
# no queries, so that it writes nothing.
prove() {
    log=$root/target/sample.log
    mkdir -p "$root/target"
    crates=$(crates_of clock)
    (cd "$root/crates/clock" && rt run </dev/null 2>&1 && echo 'rt run: done') | tee "$log" | awk -v all="$crates" '
        /^logic=proved / { n++; printf "%d of at most %d crates proved\n", n, all > "/dev/stderr" }'
    tail -n 1 "$log" | grep -qx 'rt run: done' || { tail -n 20 "$log" >&2; return 1; }
}

# How many crates of the repository a crate rests on, itself included, by crates.txt.
crates_of() {
    awk -v want="$1" -F: '
        /^[a-z]/ { split($1, word, " "); own[word[1]] = 1; needs[word[1]] = $2 } # a static library has a word behind its name
        function visit(c,   i, k, list) {
            if (!(c in own) || c in seen) return
            seen[c] = 1; total++
            k = split(needs[c], list, " ")
            for (i = 1; i <= k; i++) visit(list[i])
        }
        END { visit(want); print total }' "$root/crates.txt"
}

if [ -z "$program" ]; then
    prove
    program=$root/crates/clock/out/clock
fi
program=$(cd "$(dirname "$program")" && pwd)/$(basename "$program")

berlin='CET-1CEST,M3.5.0,M10.5.0/3'
second() { TZ=$berlin date -d "$1" +%s; }
words() { LC_ALL=C TZ=$berlin date -d "@$1" '+%a %-d %b %Y %H:%M:%S'; }
ask() { # the answer without its "ok"
    answer=$(cd "$here" && printf '%s\n' "$*" | "$program")
    case $answer in
        'ok '*) echo "${answer#ok }" ;;
        *) echo "the clock answers '$answer' to '$*'" >&2; return 1 ;;
    esac
}
hours() { awk -v s="$1" 'BEGIN { printf "%d h %02d min", s / 3600, s % 3600 / 60 }'; }

# The instant that is some working hours after another one.
after() { # what, local time, hours
    answer=$(ask add "$(second "$2")" 0 "$(($3 * 3600))" 0)
    set -- "$@" $answer
    echo "$1"
    echo "    from $(words "$(second "$2")"), $3 working hours: $(words "$4")    (windows looked at: $6)"
}

# The working time between two local times.
between() { # what, local time, local time
    answer=$(ask between "$(second "$2")" 0 "$(second "$3")" 0)
    set -- "$@" $answer
    echo "$1"
    echo "    from $(words "$(second "$2")") to $(words "$(second "$3")"): $(hours "$4")"
}

# The working period about or after a local time, or before it.
period() { # what, next or previous, local time
    answer=$(ask "$2" "$(second "$3")" 0)
    set -- "$@" $answer
    echo "$1"
    echo "    $2 from $(words "$(second "$3")"): $(words "$4") to $(words "$6")"
}

echo "Monday to Friday 08:00 to 18:00, Europe/Berlin, site holidays out"
after "A pump is rebuilt after 4,000 working hours." '2026-01-05 08:00' 4000
after "A failure reported before Easter, response within 8 working hours. Friday and Monday are holidays." '2026-04-02 16:30' 8
after "A response of 10 hours that ends with the day, not at the next day's start." '2026-03-02 08:00' 10
between "The week of the change to summer time." '2026-03-23 00:00' '2026-03-30 00:00'
between "December, with three holidays on working days." '2026-12-01 00:00' '2027-01-01 00:00'
period "On a Saturday." next '2026-01-10 10:00'
period "On a Saturday." previous '2026-01-10 10:00'
