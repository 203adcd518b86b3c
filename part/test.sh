#!/bin/sh
# Tests the library for C, and then the Rust crate and the Python package where they are there.
#
#   part/test.sh
#
# Builds with `make`, which runs `rt lib` unless STATICLIB is set to an archive. One line for each test; the last line is 'N passed, 0 failed',
# and where a test fails it ends with 1. A tool that is missing (valgrind, g++, pkg-config) is a failure. Settings from the environment: CC (cc), CXX (g++),
# PYTHON (python3), STATICLIB.
set -eu
cd "$(dirname "$0")/.."
built=target/part
code=crates/hirgwamo/src/lib.rt
cc=${CC:-cc}
cxx=${CXX:-g++}
python=${PYTHON:-python3}
strict='-Wall -Wextra -Werror -pedantic'
common='part/test/guard.c part/test/fault.c part/test/bytes.c part/test/question.c part/test/compare.c
    part/test/load.c part/test/load_lines.c part/test/load_lists.c part/test/load_hardest.c part/test/load_zones.c
    part/test/load_marks.c part/test/load_worked.c'
tmp=$(mktemp -d)
trap 'rm -rf "$tmp"' EXIT
passed=0
failed=0

# What the example in the header writes for the sample's book and pack: 2026-04-07T12:30:00Z. Easter lies between.
expected='1775565000 s 0 ns'

# Runs a test and writes a line about it: its name and the last line that it wrote. Where it fails, the last 40 lines that it wrote stand below.
try() { # name, command..
    name=$1
    shift
    if "$@" >"$tmp/log" 2>&1; then
        passed=$((passed + 1))
        echo "passed  $name: $(tail -n 1 "$tmp/log")"
    else
        failed=$((failed + 1))
        echo "FAILED  $name"
        sed 's/^/        /' "$tmp/log" | tail -n 40
    fi
}

# Says that a test was left out, and why.
left_out() { # name, reason
    echo "        $1: left out, $2"
}

finish() {
    echo "$passed passed, $failed failed"
    [ "$failed" -eq 0 ]
}

# Whether a tool is there. Where not, says so.
has() { # tool
    command -v "$1" >/dev/null 2>&1 || { echo "$1 is missing"; return 1; }
}

# Compiles a program of part/test. It is linked with the archive or the shared library that is named with the flags.
program() { # program, its file, flags..
    made=$1
    main=$2
    shift 2
    "$cc" -std=c11 -O1 -g $strict -pthread -o "$tmp/$made" "part/test/$main.c" $common "$@"
}

build() {
    make --no-print-directory && echo "an archive of $(wc -c <"$built/libhirgwamo.a") bytes, a shared library of $(wc -c <"$built/libhirgwamo.so.1")"
}

# ---- the header, the archive and the shared library

header_alone() { # compiler, language, standard
    has "$1" || return 1
    echo '#include "hirgwamo.h"' >"$tmp/alone.$2"
    "$1" "-std=$3" $strict -I "$built" -fsyntax-only "$tmp/alone.$2" && echo "no warning"
}

header_compared() {
    cmp part/hirgwamo.h "$built/hirgwamo.h" && "$python" part/header.py --library "$built/libhirgwamo.so.1"
}

# Each edit of the header must be found.
wrong_header() {
    count=0
    for edit in 's/int64_t width/int32_t width/' 's/const int64_t \*log/int64_t *log/' 's/size_t log_len/size_t length/' '/^uint32_t hirgwamo_version/d' \
        's/^uint32_t hirgwamo_version.*/&uint32_t hirgwamo_more(void);/' 's/LOG_MALFORMED = 11/LOG_MALFORMED = 13/' 's/CHANGE_SIZE = 3/CHANGE_SIZE = 2/' \
        's/TOO_SHORT = 100/TOO_SHORT = 99/' 's/VERSION 1001000u/VERSION 1000000u/' 's/SKIPPED = 2/SKIPPED = 1/' 's/REPEATED = 1/READ_TWICE = 1/' \
        's/MARKED_PERIOD_SIZE = 6/MARKED_PERIOD_SIZE = 4/' '/^uint32_t hirgwamo_resolve_marked/,/;$/d'; do
        sed "$edit" part/hirgwamo.h >"$tmp/wrong.h"
        if cmp -s part/hirgwamo.h "$tmp/wrong.h"; then
            echo "the edit $edit changes nothing"
            return 1
        fi
        if "$python" part/header.py --header "$tmp/wrong.h"; then
            echo "the edit $edit is not found"
            return 1
        fi
        count=$((count + 1))
    done
    echo "$count wrong headers found"
}

# The shared library has its name, needs nothing but the C library, and its memory is protected.
shared_library() {
    readelf -dW "$built/libhirgwamo.so.1" >"$tmp/dynamic" && readelf -lW "$built/libhirgwamo.so.1" >"$tmp/segments" || return 1
    grep -q 'SONAME.*\[libhirgwamo\.so\.1\]' "$tmp/dynamic" || { echo "it has another SONAME"; return 1; }
    [ "$(readlink "$built/libhirgwamo.so")" = libhirgwamo.so.1 ] || { echo "libhirgwamo.so is no link to it"; return 1; }
    [ "$(grep NEEDED "$tmp/dynamic" | grep -vc '\[libc\.so\.6\]')" -eq 0 ] || { echo "it needs another library than the C library"; return 1; }
    grep -q 'BIND_NOW' "$tmp/dynamic" && grep -q 'GNU_RELRO' "$tmp/segments" || { echo "its tables can be written"; return 1; }
    ! grep -q 'TEXTREL' "$tmp/dynamic" || { echo "its code is changed when it is loaded"; return 1; }
    grep -q 'GNU_STACK.* RW ' "$tmp/segments" || { echo "its stack is executable"; return 1; }
    echo "name, link, protected memory"
}

# The archive has no memory of its own that can be written, and needs no other function than those that the header tells.
archive() {
    size "$built/libhirgwamo.a" >"$tmp/sizes" || return 1
    awk 'NR > 1 { own += $2 + $3; members++ } END { exit !(members > 0 && own == 0) }' "$tmp/sizes" || { echo "it has memory of its own"; return 1; }
    nm -u "$built/libhirgwamo.a" >"$tmp/undefined" && nm --defined-only -g "$built/libhirgwamo.a" >"$tmp/defined" || return 1
    awk '$1 == "U" { print $2 }' "$tmp/undefined" | sort -u >"$tmp/wanted"
    awk 'NF == 3 { print $3 }' "$tmp/defined" | sort -u >"$tmp/had"
    needs=$(comm -23 "$tmp/wanted" "$tmp/had" | grep -vx -e memcpy -e memset -e _GLOBAL_OFFSET_TABLE_ | tr '\n' ' ')
    [ -z "$needs" ] || { echo "it needs $needs"; return 1; }
    echo "no memory of its own, and needs memcpy and memset only"
}

# ---- the example of the header

# Writes the example to a file.
example() {
    sed -n '/^ \* EXAMPLE\./,/^ \*\//s/^ \*     //p' part/hirgwamo.h >"$tmp/example.c"
    grep -q 'int main' "$tmp/example.c" || { echo "the header has no example"; return 1; }
}

# Runs the example on the sample, and without files, where the book is refused.
run_example() { # program
    told=$("$1" sample/book.bin sample/zones.bin) || return 1
    echo "$told"
    [ "$told" = "$expected" ] || { echo "it should write $expected"; return 1; }
    if refused=$("$1" "$tmp/none" "$tmp/none"); then
        echo "it should end with 1 where there are no files"
        return 1
    fi
    [ "$refused" = 'refusal 1 at 0' ] || { echo "without files it writes $refused"; return 1; }
    echo "$told"
}

header_example() {
    example && "$cc" -std=c99 $strict -I "$built" -o "$tmp/example" "$tmp/example.c" "$built/libhirgwamo.a" && run_example "$tmp/example"
}

# ---- stored cases

watched='-fsanitize=address,undefined -fno-sanitize-recover=all'

replay_watched() {
    program replay-watched replay $watched "$built/libhirgwamo.a" && ASAN_OPTIONS=detect_leaks=0 "$tmp/replay-watched" .
}

replay_valgrind() {
    has valgrind && program replay-plain replay "$built/libhirgwamo.a" || return 1
    valgrind --tool=memcheck --error-exitcode=1 --leak-check=no -q "$tmp/replay-plain" .
}

replay_shared() {
    program replay-shared replay "$built/libhirgwamo.so.1" && LD_LIBRARY_PATH=$built "$tmp/replay-shared" .
}

threads_shared() {
    program threads-shared threads "$built/libhirgwamo.so.1" && LD_LIBRARY_PATH=$built "$tmp/threads-shared" .
}

threads_watched() {
    program threads-watched threads -fsanitize=thread "$built/libhirgwamo.a" && "$tmp/threads-watched" .
}

# Whether programs that watch threads can be built and run here.
can_watch_threads() {
    echo 'int main(void) { return 0; }' >"$tmp/nothing.c"
    "$cc" -fsanitize=thread -o "$tmp/nothing" "$tmp/nothing.c" 2>/dev/null && "$tmp/nothing" 2>/dev/null
}

misuse() {
    program misuse-watched misuse $watched "$built/libhirgwamo.a" && ASAN_OPTIONS=detect_leaks=0 "$tmp/misuse-watched" &&
        program misuse-shared misuse "$built/libhirgwamo.so.1" && LD_LIBRARY_PATH=$built "$tmp/misuse-shared"
}

# ---- the installed library

prefix=$tmp/prefix

installed() {
    has pkg-config || return 1
    make --no-print-directory install "PREFIX=$prefix" DESTDIR= || return 1
    [ "$(PKG_CONFIG_PATH=$prefix/lib/pkgconfig pkg-config --modversion hirgwamo)" = 1.1.0 ] || { echo "pkg-config tells another version"; return 1; }
    for file in include/hirgwamo.h lib/libhirgwamo.a lib/libhirgwamo.so.1 lib/libhirgwamo.so lib/pkgconfig/hirgwamo.pc share/doc/hirgwamo/NOTICE; do
        [ -f "$prefix/$file" ] || { echo "$file is missing"; return 1; }
    done
    echo "all files"
}

# The example in C or C++, against the installed shared library or archive.
installed_example() { # program, compiler, standard, ending, archive or shared
    has pkg-config && has "$2" && example || return 1
    cp "$tmp/example.c" "$tmp/$1.$4"
    PKG_CONFIG_PATH=$prefix/lib/pkgconfig
    export PKG_CONFIG_PATH
    how=-Wl,-Bdynamic
    [ "$5" = shared ] || how=-Wl,-Bstatic
    "$2" "-std=$3" $strict $(pkg-config --cflags hirgwamo) -o "$tmp/$1" "$tmp/$1.$4" "$how" $(pkg-config --libs hirgwamo) -Wl,-Bdynamic || return 1
    needs=archive
    readelf -dW "$tmp/$1" | grep -q 'NEEDED.*libhirgwamo\.so\.1' && needs=shared
    [ "$needs" = "$5" ] || { echo "it is linked with the $needs library"; return 1; }
    LD_LIBRARY_PATH=$prefix/lib run_example "$tmp/$1"
}

# The installed Python package loads the installed library.
installed_python() {
    (cd "$tmp" && PYTHONPATH=$prefix/lib/hirgwamo/python PYTHONDONTWRITEBYTECODE=1 HIRGWAMO_LIBRARY='' "$python" -c '
import sys, hirgwamo
prefix = sys.argv[1]
maps = open("/proc/self/maps").read()
assert hirgwamo.__file__.startswith(prefix + "/lib/hirgwamo/python/"), hirgwamo.__file__
assert prefix + "/lib/libhirgwamo.so.1" in maps, "another library is loaded"
print("loads the installed library")
' "$prefix")
}

# DESTDIR is put before PREFIX and is not told to pkg-config; `make uninstall` leaves no file.
staged() {
    make --no-print-directory install PREFIX=/usr "DESTDIR=$tmp/stage" || return 1
    grep -qx 'prefix=/usr' "$tmp/stage/usr/lib/pkgconfig/hirgwamo.pc" || { echo "hirgwamo.pc tells another prefix"; return 1; }
    [ -f "$tmp/stage/usr/lib/libhirgwamo.so.1" ] || { echo "nothing is installed there"; return 1; }
    make --no-print-directory uninstall PREFIX=/usr "DESTDIR=$tmp/stage" || return 1
    left=$(find "$tmp/stage" ! -type d)
    [ -z "$left" ] || { echo "these files are left: $left"; return 1; }
    echo "installed and removed"
}

# ---- the programs of README.md, run from the repository's folder: each must print what stands behind it there

readme_prints() { # language, command..
    expected_text=$(part/readme.sh "$1" text)
    shift
    printed=$("$@") || { echo "it ends with $?"; return 1; }
    [ -n "$expected_text" ] && [ "$printed" = "$expected_text" ] || { echo "it prints '$printed'"; return 1; }
    echo "$printed"
}

readme_c() {
    part/readme.sh c code >"$tmp/due.c"
    "$cc" "$tmp/due.c" -I target/part target/part/libhirgwamo.a -o "$tmp/due" && readme_prints c "$tmp/due"
}

readme_python() {
    part/readme.sh python code >"$tmp/due.py"
    PYTHONPATH=python PYTHONDONTWRITEBYTECODE=1 readme_prints python "$python" "$tmp/due.py"
}

# The program that the Python package is compared with. `rt run` proves and builds it, and runs it, here with no queries. Where the toolchain is not there,
# one that is built already serves.
clock_built() {
    clock=crates/clock/out/clock
    if has rt; then
        (cd crates/clock && rt run </dev/null) || return 1
    fi
    [ -x "$clock" ] || { echo "$clock is missing"; return 1; }
    echo "$clock"
}

# ---- all of it

try 'build' build
[ "$failed" -eq 0 ] || { finish; exit 1; }
for standard in c89 c99 c11; do
    try "header alone, $standard" header_alone "$cc" c "$standard"
done
for standard in c++11 c++17; do
    try "header alone, $standard" header_alone "$cxx" cc "$standard"
done
if [ -f "$code" ]; then
    try 'header and exported functions' header_compared
    try 'wrong headers' wrong_header
else
    left_out 'header and exported functions' "there is no $code"
fi
try 'shared library' shared_library
try 'archive' archive
try 'example of the header, c99' header_example
try 'stored cases, memory and arithmetic watched' replay_watched
try 'stored cases, valgrind' replay_valgrind
try 'stored cases, shared library' replay_shared
try 'eight threads, shared library' threads_shared
if can_watch_threads; then
    try 'eight threads, threads watched' threads_watched
else
    left_out 'eight threads, threads watched' 'programs with -fsanitize=thread do not run here'
fi
try 'wrong use' misuse
try 'install' installed
try 'installed, C, shared library' installed_example c-shared "$cc" c99 c shared
try 'installed, C, archive' installed_example c-archive "$cc" c99 c archive
try 'installed, C++, shared library' installed_example cc-shared "$cxx" c++11 cc shared
try 'installed, C++, archive' installed_example cc-archive "$cxx" c++11 cc archive
[ ! -f python/hirgwamo/__init__.py ] || try 'installed, Python' installed_python
try 'install below DESTDIR, and uninstall' staged
try 'README.md, C' readme_c
[ ! -f python/hirgwamo/__init__.py ] || try 'README.md, Python' readme_python
[ ! -f rust/test.sh ] || try 'rust/test.sh' rust/test.sh
try 'the program clock' clock_built
[ ! -f python/test.sh ] || try 'python/test.sh' python/test.sh
finish
