#!/bin/sh
# Builds the original over jiff itself, and the driver for zone files.
#
#   build.sh WORK [PROFILE]
#
# PROFILE is cargo's: `checked` (if not told), where overflows and assertions
# stop a program, or `release`. Everything that is made goes to the folder WORK.
# jiff is taken from the folder that JIFF tells (else WORK/jiff), and brought
# there first where it is not (../jiff.sh). Prints the folder of the programs
# `answer`, `zone` and `beyond`. Ends with 3 where jiff can't be had.
set -eu

if [ $# -lt 1 ] || [ $# -gt 2 ]; then
    echo "usage: build.sh WORK [PROFILE]" >&2
    exit 2
fi
here=$(cd "$(dirname "$0")" && pwd)
profile=${2:-checked}
mkdir -p "$1"
work=$(cd "$1" && pwd)
jiff=${JIFF:-$work/jiff}
"$here/../jiff.sh" "$jiff" >&2
jiff=$(cd "$jiff" && pwd)

# cargo writes its lock file beside Cargo.toml, so that one is copied.
mkdir -p "$work/real/jiff"
cp "$here/Cargo.toml" "$work/real/jiff/Cargo.toml"
ln -sfn "$here/src" "$work/real/jiff/src"
ln -sfn "$here/../rust" "$work/real/rust"
ln -sfn "$jiff/usr/share/cargo/registry" "$work/registry"
export CARGO_TARGET_DIR="$work/target-real"
cargo build --quiet --offline --profile "$profile" --manifest-path "$work/real/jiff/Cargo.toml"
echo "$CARGO_TARGET_DIR/$profile"
