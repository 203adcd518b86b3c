#!/bin/sh
# Tests the Python package: prints one line for each test, then how many passed and failed; ends non-zero where one fails.
#
#   python/test.sh
#
# HIRGWAMO_LIBRARY  the shared library (default: target/part/libhirgwamo.so.1 of the repository)
# CLOCK             the program whose answers are compared (default: crates/clock/out/clock of the repository)
# PYTHON            the interpreter, 3.9 or later (default: python3)
set -eu
here=$(cd "$(dirname "$0")" && pwd)

# A path that also holds in another folder.
absolute() {
    case $1 in
        /*) echo "$1" ;;
        *) echo "$PWD/$1" ;;
    esac
}

HIRGWAMO_LIBRARY=$(absolute "${HIRGWAMO_LIBRARY:-$here/../target/part/libhirgwamo.so.1}")
CLOCK=$(absolute "${CLOCK:-$here/../crates/clock/out/clock}")
PYTHON=${PYTHON:-python3}
export HIRGWAMO_LIBRARY CLOCK
export PYTHONDONTWRITEBYTECODE=1

for file in "$HIRGWAMO_LIBRARY" "$CLOCK"; do
    [ -f "$file" ] || { echo "test.sh: $file is not there" >&2; exit 1; }
done
cd "$here"
if "$PYTHON" -m mypy --version >/dev/null 2>&1; then
    "$PYTHON" -m mypy --strict --cache-dir=/dev/null hirgwamo
else
    echo "mypy is not installed: the types are not checked"
fi
exec "$PYTHON" -W error -m tests.run
