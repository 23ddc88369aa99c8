#!/bin/sh
# Installs from Debian's packages what is missing to build the host programs: on a machine that is not x86-64 the cross compilers
# and the emulator, and everywhere pkg-config and the static SQLite for x86-64. Silent where nothing is missing; where it cannot install it says in
# one line what is to be installed, and ends with 1.
set -eu
cd "$(dirname "$0")"
. ./tools.sh

tmp=$(mktemp -d)
trap 'rm -rf "$tmp"' EXIT
trap 'exit 1' HUP INT TERM

there() { command -v "$1" > /dev/null; }

# a program that has the header, and is linked with the archive
echo '#include <sqlite3.h>
int main(void) { return sizeof(sqlite3 *) == 0; }' > "$tmp/probe.c"
# the words of $CC and $SQLITE are split on purpose
has_sqlite() { $CC -o "$tmp/probe" "$tmp/probe.c" $SQLITE > "$tmp/log" 2>&1; }

# what is missing; where there is no compiler it finds no SQLite either, and installing that once more does no harm
missing() {
    packages=
    case $(uname -m) in
    x86_64 | amd64)
        sqlite_package=libsqlite3-dev
        there "${CC%% *}" || packages="$packages gcc libc6-dev"
        ;;
    *)
        sqlite_package=libsqlite3-dev:amd64
        there "${CC%% *}" || packages="$packages gcc-x86-64-linux-gnu"
        there "${CXX%% *}" || packages="$packages g++-x86-64-linux-gnu"
        there qemu-x86_64 || packages="$packages qemu-user"
        ;;
    esac
    there pkg-config || packages="$packages pkg-config"
    has_sqlite || packages="$packages $sqlite_package"
    packages=${packages# }
}

missing
[ -n "$packages" ] || exit 0
foreign=
case $packages in
*:amd64*) foreign=' (first: dpkg --add-architecture amd64, apt-get update)' ;;
esac
if [ "$(id -u)" -ne 0 ] || ! there apt-get; then
    echo "host/packages.sh: missing: apt-get install $packages$foreign" >&2
    exit 1
fi

echo "host/packages.sh: installing $packages" >&2
export DEBIAN_FRONTEND=noninteractive
# the words are split on purpose; another apt-get is waited for
{
    [ -z "$foreign" ] || dpkg --add-architecture amd64
    apt-get -q -o DPkg::Lock::Timeout=300 update
    apt-get -q -y -o DPkg::Lock::Timeout=300 install --no-install-recommends $packages
} > "$tmp/apt" 2>&1 || { tail -n 20 "$tmp/apt" >&2; echo "host/packages.sh: not installed: $packages$foreign" >&2; exit 1; }
missing
[ -z "$packages" ] || { cat "$tmp/log" >&2; echo "host/packages.sh: still missing: $packages" >&2; exit 1; }
