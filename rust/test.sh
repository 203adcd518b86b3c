#!/bin/sh
# Builds the crate over jiff itself and runs its tests, one line each.
#
#   test.sh
#
# Settings from the environment:
#   HIRGWAMO_LIB_DIR  the folder of libhirgwamo.a (if not set ../target/part)
#   JIFF              where jiff is, as ../compare/jiff.sh unpacks it (if not set
#                     ../target/jiff; it is brought there where it is not)
#   WORK              where the builds go (if not set ../target/rust)
#   SEED, COUNT       of the random schedules (if not set 1 and 4000)
#
# Nothing is written outside WORK and JIFF but short-lived folders in /tmp; what
# each test printed is in WORK/log. Ends with 1 if a test fails, with 3 if jiff
# can't be had. Needs the system's zone files in /usr/share/zoneinfo.
set -eu

EXAMPLES_OF_THE_ORIGINAL=28
ZONEINFO=/usr/share/zoneinfo
LONG_NAME=a-name-of-sixty-five-bytes-which-is-one-more-than-a-book-can-have

here=$(cd "$(dirname "$0")" && pwd)
root=$(cd "$here/.." && pwd)
work=${WORK:-$root/target/rust}
mkdir -p "$work/log"
work=$(cd "$work" && pwd)
jiff=${JIFF:-$root/target/jiff}
HIRGWAMO_LIB_DIR=${HIRGWAMO_LIB_DIR:-$root/target/part}
if [ ! -e "$HIRGWAMO_LIB_DIR/libhirgwamo.a" ]; then
    echo "test.sh: there is no libhirgwamo.a in $HIRGWAMO_LIB_DIR; build it, or set HIRGWAMO_LIB_DIR" >&2
    exit 2
fi
HIRGWAMO_LIB_DIR=$(cd "$HIRGWAMO_LIB_DIR" && pwd)
CARGO_TARGET_DIR=$work/build
EXAMPLES=$work/examples/text
export HIRGWAMO_LIB_DIR CARGO_TARGET_DIR EXAMPLES
unset TZDIR
"$root/compare/jiff.sh" "$jiff" >"$work/log/jiff"
jiff=$(cd "$jiff" && pwd)

failed=0

# say RESULT LOG TEXT: one line for a test, and the end of its log where it fails.
say() {
    if [ "$1" = ok ]; then
        echo "ok      $3"
    else
        failed=1
        echo "FAILED  $3"
        tail -n 25 "$work/log/$2" | sed 's/^/        /'
    fi
}

# in_cargo LOG COMMAND FOLDER ARGUMENT..: a cargo command on the crate in a folder.
in_cargo() {
    log=$1 command=$2 folder=$3
    shift 3
    cargo "$command" --offline --profile checked --manifest-path "$work/$folder/Cargo.toml" "$@" >"$work/log/$log" 2>&1
}

# passed LOG: how many tests passed in all; nothing where one failed or was left out.
passed() {
    if grep '^test result:' "$work/log/$1" | grep -qv '^test result: ok\..* 0 failed; 0 ignored;.* 0 filtered out'; then
        return
    fi
    sed -n 's/^test result: ok\. \([0-9]*\) passed;.*/\1/p' "$work/log/$1" | awk '{ sum += $1 } END { print sum + 0 }'
}

# seen LOG TEXT: the number before a text that the program `random` printed.
seen() {
    sed -n "s/^ *\([0-9]*\) $2\$/\1/p" "$work/log/$1"
}

# doc_text FILE: the doc comments of a source file, each on its line.
doc_text() {
    sed -e 's|^ *//[/!] \{0,1\}||' -e t -e 's|.*||' "$1"
}

# blocks: how many code blocks there are in the text on standard input.
blocks() {
    echo $(($(grep -c '^```') / 2))
}

# cargo writes its lock files beside the manifests, so those are copied, and the
# crate's name for jiff becomes a path.
lay_out() {
    mkdir -p "$work/crate" "$work/examples/text" "$work/random" "$work/real/jiff"
    ln -sfn "$jiff/usr/share/cargo/registry" "$work/registry"
    sed 's|^jiff = .*|jiff = { path = "../registry/jiff" }|' "$here/Cargo.toml" >"$work/crate/Cargo.toml"
    for part in build.rs src tests README.md; do
        ln -sfn "$here/$part" "$work/crate/$part"
    done
    for part in examples random; do
        cp "$here/compare/$part/Cargo.toml" "$work/$part/Cargo.toml"
        ln -sfn "$here/compare/$part/src" "$work/$part/src"
    done
    cp "$root/compare/jiff/Cargo.toml" "$work/real/jiff/Cargo.toml"
    ln -sfn "$root/compare/jiff/src" "$work/real/jiff/src"
    ln -sfn "$root/compare/rust" "$work/real/rust"
}

# finds EXPECTED SETTING..: whether build.rs, run in a folder apart with these
# settings, says what is expected.
finds() {
    expected=$1
    shift
    env -u HIRGWAMO_LIB_DIR CARGO_MANIFEST_DIR="$work/find/crate" "$@" "$work/find/build" >"$work/log/find" 2>&1 || true
    grep -qF "$expected" "$work/log/find"
}

# The three places where build.rs looks for the archive, and what it says where it
# finds none.
archive_is_found() {
    rm -rf "$work/find"
    mkdir -p "$work/find/crate" "$work/find/none" "$work/find/pkgconfig"
    cat >"$work/find/pkgconfig/hirgwamo.pc" <<END
Name: hirgwamo
Description: for a test
Version: 1.1.0
Libs: -L$HIRGWAMO_LIB_DIR -lhirgwamo
END
    rustc --edition 2021 -o "$work/find/build" "$here/build.rs" 2>"$work/log/find" || return 1
    linked="cargo:rustc-link-search=native="
    finds "$linked$HIRGWAMO_LIB_DIR" HIRGWAMO_LIB_DIR="$HIRGWAMO_LIB_DIR" || return 1
    finds "there is no libhirgwamo.a; set it to the folder" HIRGWAMO_LIB_DIR="$work/find/none" || return 1
    finds "set HIRGWAMO_LIB_DIR to the folder that has it" PKG_CONFIG="$work/find/none/absent" || return 1
    if command -v pkg-config >/dev/null; then
        finds "$linked$HIRGWAMO_LIB_DIR" PKG_CONFIG_PATH="$work/find/pkgconfig" || return 1
    fi
    mkdir -p "$work/find/target"
    ln -sfn "$HIRGWAMO_LIB_DIR" "$work/find/target/part"
    finds "$linked$work/find/crate/../target/part" PKG_CONFIG="$work/find/none/absent"
}

test_archive() {
    text="build.rs finds the archive, or says what to do"
    if archive_is_found; then
        say ok find "$text"
    else
        say no find "$text"
    fi
}

test_build() {
    text="the crate builds over $(sed -n 2p "$work/log/jiff"), without a warning"
    if in_cargo build build crate && ! grep -q '^warning' "$work/log/build"; then
        say ok build "$text"
    else
        say no build "$text"
    fi
}

test_own() {
    count=
    if in_cargo tests test crate --lib --tests; then
        count=$(passed tests)
    fi
    if [ "${count:-0}" -gt 0 ]; then
        say ok tests "tests of the crate: $count pass"
    else
        say no tests "tests of the crate"
    fi
}

# test_examples LOG FOLDER WANTED TEXT: whether rustdoc runs so many examples of the
# crate in a folder, and all pass.
test_examples() {
    count=
    if in_cargo "$1" test "$2" --doc; then
        count=$(passed "$1")
    fi
    text="$4: ${count:-not all} of $3 pass"
    if [ "${count:-0}" -eq "$3" ]; then
        say ok "$1" "$text"
    else
        say no "$1" "$text"
    fi
}

test_own_examples() {
    wanted=$(for file in "$here"/src/*.rs; do doc_text "$file"; done | blocks)
    test_examples own_examples crate "$wanted" "doc examples of the crate"
}

# The examples are taken from the original's files as they stand, but for its name.
test_original_examples() {
    for file in "$root"/compare/rust/original/*.rs; do
        doc_text "$file" | sed 's/workclock/hirgwamo/g' >"$EXAMPLES/$(basename "$file" .rs).md"
    done
    wanted=$(cat "$EXAMPLES"/*.md | blocks)
    if [ "$wanted" -ne "$EXAMPLES_OF_THE_ORIGINAL" ]; then
        echo "$wanted code blocks" >"$work/log/examples"
        say no examples "there are $EXAMPLES_OF_THE_ORIGINAL doc examples of the original"
    fi
    test_examples examples examples "$wanted" "doc examples of the original, with its name replaced"
}

# A zone folder with what jiff passes over, and with what one side alone takes.
made_folder() {
    zones=$work/zones
    rm -rf "$zones"
    mkdir -p "$zones/Europe/posix" "$zones/asia" "$zones/Asia" "$zones/Etc" "$zones/Leap" "$zones/posix/Europe" \
        "$zones/right/Europe" "$zones/POSIX" "$zones/Empty"
    cp "$ZONEINFO/Europe/Berlin" "$zones/Europe/Berlin"
    cp "$ZONEINFO/Asia/Tokyo" "$zones/asia/Tokyo"
    cp "$ZONEINFO/right/Europe/Paris" "$zones/Leap/Paris"
    for name in Asia/Kolkata UTC Etc/Unknown; do
        cp "$ZONEINFO/Asia/Kolkata" "$zones/$name"
    done
    for name in Europe/posix/Paris posix/Europe/Paris right/Europe/Paris POSIX/Paris "Zoné with a space" "$LONG_NAME"; do
        cp "$ZONEINFO/Europe/Paris" "$zones/$name"
    done
    printf 'TZif' >"$zones/Short"
    printf 'a text' >"$zones/Text"
    : >"$zones/Nothing"
    ln -s Europe/Berlin "$zones/Link"
    ln -s Europe "$zones/Folder"
    ln -s nowhere "$zones/Dangling"
    ln -s "$ZONEINFO/Asia/Tokyo" "$zones/Outside"
}

# test_names LOG FOLDER KNOWN TEXT: whether the names below the zone folder in use
# are taken alike, but for the differences that are known.
test_names() {
    result=no
    if "$CARGO_TARGET_DIR/checked/random" names "$2" >"$work/log/$1" 2>&1 &&
        [ "$(sed -n 's/^known difference: //p' "$work/log/$1")" = "$3" ]; then
        result=ok
    fi
    differences=$(grep -c '^known difference: ' "$work/log/$1" || true)
    say $result "$1" "names of $4: $(seen "$1" 'names taken by both') taken by both, $(seen "$1" 'names unknown to both') unknown to both, $differences known differences"
}

test_random() {
    result=no
    if "$CARGO_TARGET_DIR/checked/random" schedules "${SEED:-1}" "${COUNT:-4000}" >"$work/log/random" 2>&1; then
        result=ok
    fi
    say $result random "schedules in each zone and random ones: $(seen random 'answers of single calls compared') answers of $(seen random 'schedules built by both') schedules compared, $(seen random differences) differences; $(seen random 'known difference: schedules refused here alone, TooManyRules') schedules past a limit, refused here alone"
}

# The program in Rust of ../README.md, built over the crate, must print what stands behind it there.
readme_runs() {
    mkdir -p "$work/readme/src"
    "$root/part/readme.sh" rust code >"$work/readme/src/main.rs"
    cat >"$work/readme/Cargo.toml" <<END
[package]
name = "readme"
version = "0.0.0"
edition = "2021"

[dependencies]
hirgwamo = { path = "../crate" }
jiff = { path = "../registry/jiff" }

[profile.checked]
inherits = "release"

[workspace]
END
    in_cargo readme build readme || return 1
    "$CARGO_TARGET_DIR/checked/readme" >"$work/log/readme" 2>&1 || return 1
    [ -s "$work/log/readme" ] && [ "$(cat "$work/log/readme")" = "$("$root/part/readme.sh" rust text)" ]
}

test_readme() {
    text="the program of README.md prints what is printed there"
    if readme_runs; then
        say ok readme "$text"
    else
        say no readme "$text"
    fi
}

lay_out
test_archive
test_build
test_own
test_own_examples
test_original_examples
test_readme
if in_cargo random_build build random; then
    test_names names_system "$ZONEINFO" "" "the system's zone folder"
    made_folder
    TZDIR=$work/zones
    export TZDIR
    test_names names_made "$TZDIR" "$LONG_NAME is taken by jiff, and too long here
leap/paris is taken by jiff, and not usable here
short is unknown to jiff, and not usable here" "a made zone folder"
    unset TZDIR
    test_random
else
    say no random_build "the program that compares with the original builds"
fi
exit $failed
