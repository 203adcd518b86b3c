#!/bin/sh
# Runs the original's doc examples, taken from its seven files as they stand,
# over the original with jiff itself, and over a program.
#
#   examples.sh PROGRAM [ARGUMENT..]
#
# For the program a crate with the original's names (examples/) writes each
# schedule of an example as a rule book and a pack, and asks each call as a query
# line; PROGRAM is run as by run.sh. So what an example asserts is held to what
# the program answers. Settings from the environment:
#   WORK      where the builds go (else a new folder in /tmp)
#   JIFF      where jiff is, as jiff.sh unpacks it (if not set WORK/jiff)
#   ZONEINFO  where real zone files are (if not set /usr/share/zoneinfo)
#
# Prints how many examples pass, and how many questions the program was asked; all
# of them are in WORK/asked.txt with their answers. Ends with 1 where an example
# fails or was not run, with 3 if jiff can't be had.
set -eu

if [ $# -lt 1 ]; then
    echo "usage: examples.sh PROGRAM [ARGUMENT..]" >&2
    exit 2
fi
here=$(cd "$(dirname "$0")" && pwd)
work=${WORK:-$(mktemp -d /tmp/compare.XXXXXX)}
mkdir -p "$work"
work=$(cd "$work" && pwd)
"$here/jiff/build.sh" "$work" >/dev/null

# Words told by a relative path are meant from here.
program=
for word in "$@"; do
    case $word in
    /*) ;;
    *)
        if [ -e "$word" ]; then
            word=$PWD/$word
        fi
        ;;
    esac
    program="$program '$word'"
done

# test FOLDER FILE: runs the examples of a crate; the output goes to FILE.
test_examples() {
    CARGO_TARGET_DIR="$work/target-real" cargo test --doc --offline --profile checked --manifest-path "$1/Cargo.toml" >"$2" 2>&1 || true
}

# passed FILE: how many examples passed; none of a run with others.
passed() {
    sed -n 's/^test result: ok\. \([0-9]*\) passed; 0 failed; 0 ignored.*/\1/p' "$1"
}

# The doc comments of the original's files, each on its line.
rm -rf "$work/examples/text"
mkdir -p "$work/examples/crate" "$work/examples/text"
for file in "$here"/rust/original/*.rs; do
    sed -e 's|^ *//[/!] \{0,1\}||' -e t -e 's|.*||' "$file" >"$work/examples/text/$(basename "$file" .rs).md"
done
wanted=$(cat "$work/examples/text"/*.md | grep -c '^```')
wanted=$((wanted / 2))

cp "$here/examples/Cargo.toml" "$work/examples/crate/Cargo.toml"
ln -sfn "$here/examples/src" "$work/examples/crate/src"
ln -sfn "$here/rust" "$work/examples/rust"
rm -f "$work/asked.txt"
test_examples "$work/real/jiff" "$work/examples-original.txt"
EXAMPLES=$work/examples/text PROGRAM=$program ASKED=$work/asked.txt ZONEINFO=${ZONEINFO:-/usr/share/zoneinfo}
export EXAMPLES PROGRAM ASKED ZONEINFO
test_examples "$work/examples/crate" "$work/examples-program.txt"

failed=0
for who in original program; do
    count=$(passed "$work/examples-$who.txt")
    if [ "${count:-0}" -ne "$wanted" ]; then
        failed=1
        grep -e '^test ' -e panicked -e '^error' "$work/examples-$who.txt" | grep -v ' ok$' || true
    fi
    echo "$who: ${count:-not all} of $wanted examples pass"
done
asking=$(cut -d' ' -f1 "$work/asked.txt" | sort -u | wc -l)
echo "the program was asked $(wc -l <"$work/asked.txt") questions by $asking of the examples: $work/asked.txt"
exit $failed
