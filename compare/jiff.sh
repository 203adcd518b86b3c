#!/bin/sh
# Brings the source of the crate jiff from Debian's archive, suite sid, and
# unpacks it; the machine's own packages and lists stay as they are.
#
#   jiff.sh [FOLDER]
#
# FOLDER (if not told, `jiff` below WORK or below a new folder in /tmp) gets
#   VERSIONS                   the packages that were unpacked, one to a line
#   usr/share/cargo/registry/  the crates, which cargo takes as a folder of
#                              sources, with empty ones for what it never builds
# A FOLDER that has VERSIONS is left as it is, so that it serves without a
# network. Prints the folder and the versions.
#
# The site is one of those that the machine's own apt takes packages from, and
# the key that must have signed is the machine's. Where the packages can't be
# had it says so in one line on standard error and ends with 3.
set -eu

SUITE=sid
PACKAGES="librust-jiff-dev librust-jiff-core-dev"
UNREACHABLE=3

here=$(cd "$(dirname "$0")" && pwd)
folder=${1:-${WORK:-$(mktemp -d /tmp/compare.XXXXXX)}/jiff}
mkdir -p "$folder"
folder=$(cd "$folder" && pwd)

unreachable() {
    echo "jiff.sh: the packages of jiff can't be had ($1); the stand-in serves instead" >&2
    exit "$UNREACHABLE"
}

tell() {
    echo "$folder"
    cat "$folder/VERSIONS"
}

if [ -e "$folder/VERSIONS" ]; then
    tell
    exit 0
fi
for tool in apt-get apt-config dpkg-deb; do
    command -v "$tool" >/dev/null || unreachable "no $tool here"
done

apart=$(mktemp -d /tmp/jiff-apt.XXXXXX)
trap 'rm -rf "$apart"' EXIT
mkdir -p "$apart/lists/partial" "$apart/cache/archives/partial" "$apart/debs"

# The machine's settings (proxies, say) but for its sources, folders and hooks,
# which would change files of the machine.
settings() {
    apt-config dump | grep -v -e Invoke -e '^Dir::Etc::main' -e '^Dir::Etc::parts'
    echo "Dir::Etc::main \"/dev/null\";"
    echo "Dir::Etc::parts \"/dev/null\";"
    echo "Dir::Etc::sourcelist \"$apart/sources.list\";"
    echo "Dir::Etc::sourceparts \"/dev/null\";"
    echo "Dir::State::lists \"$apart/lists\";"
    echo "Dir::Cache \"$apart/cache\";"
    echo "Acquire::Languages \"none\";"
    echo "APT::Sandbox::User \"$(id -un)\";"
}

# Where the machine takes packages from: what stands before `/dists/`.
sites() {
    apt-get --print-uris update 2>/dev/null | sed -n "s,^'\([^']*\)/dists/.*,\1,p" | awk '!seen[$0]++'
}

# bring SITE: the packages into $apart/debs. Without a keyring file apt takes
# the keys that it trusts.
bring() {
    signed=
    for keyring in /usr/share/keyrings/debian-archive-keyring.gpg /usr/share/keyrings/debian-archive-keyring.pgp; do
        if [ -e "$keyring" ]; then
            signed="[signed-by=$keyring] "
        fi
    done
    echo "deb $signed$1 $SUITE main" >"$apart/sources.list"
    (
        export APT_CONFIG="$apart/apt.conf"
        cd "$apart/debs"
        # Packages are named one by one, since their names have no spaces.
        apt-get -o APT::Update::Error-Mode=any update && apt-get download $PACKAGES
    ) >>"$apart/log" 2>&1
}

settings >"$apart/apt.conf"
brought=no
for site in $(sites); do
    if bring "$site"; then
        brought=yes
        break
    fi
done
if [ "$brought" = no ]; then
    unreachable "$(grep -h '^E:' "$apart/log" 2>/dev/null | head -1 || true)"
fi

for package in $PACKAGES; do
    dpkg-deb -x "$apart/debs/$package"_*.deb "$folder"
    echo "$package $(dpkg-deb -f "$apart/debs/$package"_*.deb Version)"
done >"$apart/VERSIONS"
python3 "$here/stubs.py" "$folder/usr/share/cargo/registry"
mv "$apart/VERSIONS" "$folder/VERSIONS"
tell
