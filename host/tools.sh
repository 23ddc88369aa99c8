# For the Makefile and the scripts that build C programs on the archive, which is for x86-64: the compilers, what makes an
# archive, the static SQLite, the sanitizers and what runs a program. On another machine they are Debian's cross compilers
# (gcc-x86-64-linux-gnu, g++-x86-64-linux-gnu), its SQLite for x86-64 (libsqlite3-dev:amd64) and its emulator (qemu-user), under
# which the address sanitizer cannot run; the undefined-behaviour sanitizer stays. CC, CXX, AR, NM and SQLITE may be set.
root=$(pwd)
while [ ! -f "$root/crates.txt" ]; do root=$(dirname "$root"); done
run=$root/run
sqlite='-l:libsqlite3.a -lpthread -lm -ldl'
case $(uname -m) in
x86_64 | amd64)
    CC=${CC:-cc} CXX=${CXX:-c++} AR=${AR:-ar} NM=${NM:-nm} SQLITE=${SQLITE:-$sqlite}
    sanitizers='-fsanitize=address,undefined -fno-sanitize-recover=all'
    ;;
*)
    CC=${CC:-x86_64-linux-gnu-gcc} CXX=${CXX:-x86_64-linux-gnu-g++} AR=${AR:-x86_64-linux-gnu-ar} NM=${NM:-x86_64-linux-gnu-nm}
    SQLITE=${SQLITE:--L/usr/lib/x86_64-linux-gnu $sqlite}
    sanitizers='-fsanitize=undefined -fsanitize-undefined-trap-on-error'
    ;;
esac
# the C++ library goes into the program, for what runs it may have none
cxx_flags='-static-libstdc++ -static-libgcc'
export CC CXX AR SQLITE

# the archive: OATLANTERN_ARCHIVE, a file or the folder that it is in, or the one that the Makefile makes, from the source as it
# stands
archive=${OATLANTERN_ARCHIVE:-$root/target/host/liboatlantern.a}
[ -d "$archive" ] && archive=$archive/liboatlantern.a
need_archive() {
    [ -n "${OATLANTERN_ARCHIVE:-}" ] || make -s -C "$root/host" archive || exit 1
    [ -f "$archive" ] || { echo "$archive is not there" >&2; exit 1; }
}
