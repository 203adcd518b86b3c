#!/bin/sh
# Prints a program of README.md, or what it must print.
#
#   part/readme.sh c|rust|python code|text
#
# The program is the block of that language; what it must print is the first block of text behind it.
set -eu
[ $# = 2 ] || { echo "usage: readme.sh c|rust|python code|text" >&2; exit 2; }
awk -v language="$1" -v wanted="$2" '
    /^```/ {
        if (inside) { inside = 0; if (printing) exit; next }
        inside = 1
        kind = substr($0, 4)
        if (kind == language) found = 1
        printing = found && kind == (wanted == "code" ? language : "text")
        next
    }
    printing { print }' "$(dirname "$0")/../README.md"
