#!/bin/sh
# Installs into a temporary prefix, builds a small program in C and in C++ against what was installed, by way of pkg-config, and
# runs it; once more after the tree was moved. Tries the programs and the command, the manual pages and their examples, the
# completion, other folders, DESTDIR and uninstall. Then, in a copy of the repository: where a crate is not proved nothing is
# built and nothing installed; what is missing on a machine is named; and the README's lines for C, on x86-64 once more as on
# another kind of machine. Needs pkg-config. Silent but for the last line; exit status 1 at the first fault.
set -eu
cd "$(dirname "$0")"
. ./tools.sh

tmp=$(mktemp -d)
trap 'rm -rf "$tmp"' EXIT
trap 'exit 1' HUP INT TERM
checks=0

fail() {
    [ ! -s "$tmp/log" ] || tail -n 20 "$tmp/log" >&2
    echo "host/test-install.sh: $1" >&2
    exit 1
}

# holds WHAT COMMAND..
holds() {
    what=$1
    shift
    "$@" > "$tmp/log" 2>&1 || fail "$what"
    checks=$((checks + 1))
}

# fails WHAT COMMAND..: what it says is then in $tmp/said
fails() {
    what=$1
    shift
    if "$@" > "$tmp/said" 2>&1; then fail "$what"; fi
    checks=$((checks + 1))
}

# says WHAT TEXT COMMAND..: the command prints this text
says() {
    what=$1 text=$2
    shift 2
    "$@" > "$tmp/got" 2> "$tmp/log" || fail "$what"
    [ "$(cat "$tmp/got")" = "$text" ] || { cp "$tmp/got" "$tmp/log"; fail "$what"; }
    checks=$((checks + 1))
}

command -v pkg-config > /dev/null || fail "pkg-config is not there (Debian: apt-get install pkg-config)"
functions=$(sed -n 's/^[a-z].*[ *]\(oatlantern_[a-z_]*\)(.*/\1/p' ../include/oatlantern.h)
version=$(sed -n 's/^.define OATLANTERN_VERSION "\(.*\)"$/\1/p' ../include/oatlantern.h)
programs='decode encode list hear salvage excite'
crates=$(sed -n 's/^CRATES = //p' Makefile)

# ---- What is installed ----

holds "make install" make install PREFIX="$tmp/usr"
for f in lib/liboatlantern.a lib/pkgconfig/oatlantern.pc include/oatlantern.h share/man/man1/oatlantern.1 \
    share/man/man3/oatlantern.3 share/bash-completion/completions/oatlantern share/doc/oatlantern/CHANGELOG.md; do
    holds "$f was not installed" test -f "$tmp/usr/$f"
done
holds "oatlantern was not installed" test -x "$tmp/usr/bin/oatlantern"
for p in $programs; do
    holds "oatlantern-$p was not installed" test -x "$tmp/usr/bin/oatlantern-$p"
    fails "oatlantern-$p is a link" test -h "$tmp/usr/bin/oatlantern-$p"
    holds "oatlantern-$p.1 was not installed" cmp oatlantern-$p.1 "$tmp/usr/share/man/man1/oatlantern-$p.1"
done
for p in oatlantern oatlantern-decode oatlantern-encode; do
    holds "$p is not what was built" cmp "../target/host/$p" "$tmp/usr/bin/$p"
done
# of those in Rattle: the crate, and the name
for p in list:list hear:hear salvager:salvage excite:excite; do
    holds "oatlantern-${p#*:} is not what rt built" cmp "../crates/${p%:*}/out/${p%:*}" "$tmp/usr/bin/oatlantern-${p#*:}"
done
says "other files in bin" 7 sh -c 'ls "$0" | wc -l' "$tmp/usr/bin"
says "the members of the archive" "$(echo "$crates" | tr ' ' '\n' | sed 's/$/.o/')" "$AR" t "$tmp/usr/lib/liboatlantern.a"
# nothing but the functions for C can be seen from outside
exported=$(cd .. && for c in $crates; do sed -n 's/^pub extern "C" fn \([a-z_]*\)(.*/\1/p' "crates/$c/src/lib.rt"; done | LC_ALL=C sort)
says "the names in the archive" "$exported" sh -c '"$0" -g --defined-only "$1" | sed -n "s/^[0-9a-f]* [A-Za-z] //p" | LC_ALL=C sort' \
    "$NM" "$tmp/usr/lib/liboatlantern.a"

# and of the C library it asks for these two alone
says "what the archive asks for" "memcpy
memset" sh -c '"$0" -u "$1" | sed -n "s/^ *U //p" | LC_ALL=C sort -u' "$NM" "$tmp/usr/lib/liboatlantern.a"

# what is installed anew takes the place of what was there, also of a link to the command
ln -sf oatlantern "$tmp/usr/bin/oatlantern-list"
holds "make install once more" make install PREFIX="$tmp/usr"
fails "oatlantern-list once more is a link" test -h "$tmp/usr/bin/oatlantern-list"
holds "oatlantern-list once more" cmp ../crates/list/out/list "$tmp/usr/bin/oatlantern-list"
holds "oatlantern once more" cmp ../target/host/oatlantern "$tmp/usr/bin/oatlantern"

# ---- The manual pages ----

# each function has its line in the synopsis, its name at the head, and a page that is found by it
[ "$(echo "$functions" | wc -l)" -ge 12 ] || fail "functions in the header"
for f in $functions; do
    holds "$f is not named in oatlantern.3" sh -c "sed -n '/^.SH NAME/,/^.SH SYNOPSIS/p' oatlantern.3 | grep -qw $f"
    holds "$f is not in the synopsis of oatlantern.3" grep -q "^.BI \".*[ *]$f(" oatlantern.3
    says "$f.3" '.so man3/oatlantern.3' cat "$tmp/usr/share/man/man3/$f.3"
done
if command -v man > /dev/null; then
    for f in oatlantern $functions; do
        man -M "$tmp/usr/share/man" 3 "$f" > "$tmp/page" 2> "$tmp/log" || fail "man 3 $f"
        holds "man 3 $f" grep -q 'int32_t oatlantern_read_frame' "$tmp/page"
    done
    man -M "$tmp/usr/share/man" 1 oatlantern > "$tmp/page" 2> "$tmp/log" || fail "man 1 oatlantern"
    holds "man 1 oatlantern" grep -q 'oatlantern salvage \[in \[out\]\]' "$tmp/page"
    # no word of troff's about any page
    if command -v troff > /dev/null; then
        for page in *.1 oatlantern.3; do
            says "$page has faults" "" sh -c 'man -l --warnings "$0" 2>&1 > /dev/null' $page
        done
    fi
fi

# the page has each subcommand, and what tally does
for n in $programs tally; do
    holds "$n is not in the synopsis of oatlantern.1" grep -qx ".B oatlantern $n" oatlantern.1
    holds "$n has no section in oatlantern.1" grep -qx ".SS $n" oatlantern.1
done

# shown PAGE N: the N-th example of a page, as it is read: between .nf and .fi, after EXAMPLES
shown() {
    awk -v n="$2" '
        /^\.SH/ { inside = /EXAMPLES/ }
        inside && /^\.nf/ { at++; on = 1; next }
        /^\.fi/ { on = 0 }
        on && inside && at == n' "$1" |
        sed -e 's/^    //' -e 's/\\-/-/g' -e 's/\\e/\\/g'
}

# the programs and the command by their names, whatever runs them
mkdir "$tmp/path"
for p in oatlantern $(for p in $programs; do echo oatlantern-$p; done); do
    printf '#!/bin/sh\nexec "%s" "%s" "$@"\n' "$run" "$tmp/usr/bin/$p" > "$tmp/path/$p"
    chmod +x "$tmp/path/$p"
done

# each example of a program's page: a command and what it prints, from the top of the repository; one that shows nothing is passed
# over
examples=0
for p in $programs; do
    n=1
    while shown oatlantern-$p.1 $n > "$tmp/example" && [ -s "$tmp/example" ]; do
        n=$((n + 1))
        sed -n '1s/^\$ //p' "$tmp/example" > "$tmp/command"
        sed 1d "$tmp/example" > "$tmp/wanted"
        [ -s "$tmp/command" ] || fail "oatlantern-$p.1: an example that is no command"
        [ -s "$tmp/wanted" ] || continue
        (cd "$root" && PATH="$tmp/path:$PATH" sh "$tmp/command") > "$tmp/got" 2>&1 || :
        holds "oatlantern-$p.1: $(cat "$tmp/command")" diff "$tmp/wanted" "$tmp/got"
        examples=$((examples + 1))
    done
done
[ $examples -ge 14 ] || fail "only $examples examples were found on the programs' pages"

# the programs in Rattle say by their installed names what is wrong around them, and write nothing
for p in list hear salvage excite; do
    usage="usage: oatlantern-$p <recording"
    [ $p != salvage ] || usage="$usage >salvaged"
    says "$p: an argument" "$usage" sh -c '"$0" FILE 2>&1 < "$1"' "$tmp/path/oatlantern-$p" "$root/samples/dropped-later.rec"
    says "$p: an input that cannot be read" "oatlantern-$p: standard input cannot be read" \
        sh -c '"$0" 2>&1 < .' "$tmp/path/oatlantern-$p"
    for output in '>&-' '> /dev/full'; do
        [ "$output" = '>&-' ] || [ -e /dev/full ] || continue
        says "$p: $output" "oatlantern-$p: standard output cannot be written" \
            sh -c "\"\$0\" 2>&1 < \"\$1\" $output" "$tmp/path/oatlantern-$p" "$root/samples/dropped-later.rec"
    done
done

# each example of the command's page: commands and what they print, as from the top of the repository; one that shows nothing is passed over
mkdir -p "$tmp/top/target"
ln -s "$root/samples" "$tmp/top/samples"
examples=0 n=1
while shown oatlantern.1 $n > "$tmp/example" && [ -s "$tmp/example" ]; do
    n=$((n + 1))
    sed -n 's/^\$ //p' "$tmp/example" > "$tmp/command"
    grep -v '^\$ ' "$tmp/example" > "$tmp/wanted" || continue
    [ -s "$tmp/command" ] || fail "oatlantern.1: an example that is no command"
    (cd "$tmp/top" && PATH="$tmp/path:$PATH" sh "$tmp/command") > "$tmp/got" 2>&1 || :
    holds "oatlantern.1: $(head -n 1 "$tmp/command")" diff "$tmp/wanted" "$tmp/got"
    sed -n 's/.*\boatlantern \([a-z]*\).*/\1/p' "$tmp/command" >> "$tmp/tried"
    examples=$((examples + 1))
done
[ $examples -ge 17 ] || fail "only $examples examples were found on the command's page"
for p in list hear salvage excite decode encode tally; do
    holds "oatlantern.1 has no example of $p" grep -qx $p "$tmp/tried"
done

# three of the programs, from what was installed
for n in list hear excite; do
    says "oatlantern-$n" "$(cat ../samples/sound.$n)" sh -c '"$0" "$1" < ../samples/sound.rec' "$run" "$tmp/usr/bin/oatlantern-$n"
done

# ---- The completion ----

# completes WORDS WANTED..: with these words on the line, the last of them at hand, bash is given these
completes() {
    words=$1
    shift
    printf '%s\n' "$@" > "$tmp/wanted"
    holds "completion of '$words'" bash -c '
        . "$1"
        read -r -a COMP_WORDS <<< "$2"
        [[ $2 != *" " ]] || COMP_WORDS+=("")
        COMP_CWORD=$((${#COMP_WORDS[@]} - 1))
        _oatlantern
        diff <(printf "%s\n" "${COMPREPLY[@]}") "$3"
    ' bash "$tmp/usr/share/bash-completion/completions/oatlantern" "$words" "$tmp/wanted"
}
if command -v bash > /dev/null; then
    # the words are split on purpose
    completes 'oatlantern ' list hear salvage excite decode encode tally --help --version
    completes 'oatlantern e' excite encode
    completes 'oatlantern tally pace.book ' $(sed -n 's/^     "  \([a-z-]*\) .*/\1/p' oatlantern.c)
    completes 'oatlantern tally pace.book tot' total totals
    completes 'oatlantern decode -' -v --help --version
    # files, which bash itself completes where nothing is given
    completes 'oatlantern list s' ''
    completes 'oatlantern tally ' ''
    completes 'oatlantern tally pace.book enter ' ''
    says "files are not completed" 'complete -o default -F _oatlantern oatlantern' \
        bash -c '. "$0"; complete -p oatlantern' "$tmp/usr/share/bash-completion/completions/oatlantern"
fi

# ---- Programs on what was installed ----

cat > "$tmp/small.c" << 'END'
#include <stdio.h>
#include <string.h>
#include <oatlantern.h>

int main(void)
{
    uint8_t widths[OATLANTERN_FIELDS] = OATLANTERN_WIDTHS;
    uint8_t record[OATLANTERN_RECORD_BYTES], again[OATLANTERN_RECORD_BYTES], frame[OATLANTERN_FRAME_BYTES];
    int32_t result;
    int field;

    memset(record, 0, sizeof record);
    for (field = OATLANTERN_PD_1; field <= OATLANTERN_CG_4; field++)
        oatlantern_set_index(record, field, ((1u << widths[field - 1]) - 1) & 0xffff);
    result = oatlantern_write_frame(record, sizeof record, frame, sizeof frame);
    if (result != 0)
        return 1;
    frame[7] ^= 8; /* place 61, PD(1)-6 */
    result = oatlantern_read_frame(frame, sizeof frame, again, sizeof again);
    if (oatlantern_is_refused(result) || oatlantern_number(result) != 5 || oatlantern_mark(result) != 0)
        return 2;
    if (memcmp(record, again, sizeof record) != 0)
        return 3;
    if (oatlantern_refusal(oatlantern_read_frame(NULL, 0, again, sizeof again)) != OATLANTERN_REFUSED_LENGTH)
        return 4;
    puts("linked, written, mended " OATLANTERN_VERSION);
    return 0;
}
END
cp "$tmp/small.c" "$tmp/small.cpp"
# the first example of oatlantern.3 is a program, the second what it prints
shown oatlantern.3 1 > "$tmp/example.c"
shown oatlantern.3 2 > "$tmp/example.wanted"
# the third is a part of one
{
    echo '#include <stdio.h>'
    echo '#include <oatlantern.h>'
    echo 'void part(const uint8_t *bytes, size_t length);'
    echo 'void part(const uint8_t *bytes, size_t length)'
    echo '{'
    shown oatlantern.3 3
    echo '}'
} > "$tmp/part.c"

# The words of pkg-config and of the flags are split on purpose.
# against FOLDER: the small program, in C and in C++, and the example, by the pkg-config file in that folder
against() {
    PKG_CONFIG_PATH=$1
    export PKG_CONFIG_PATH
    says "$1: the version" "$version" pkg-config --modversion oatlantern
    words="-Wall -Wextra -pedantic -Werror $(pkg-config --cflags oatlantern)"
    holds "$1: the small C program" $CC -std=c99 $words -o "$tmp/small" "$tmp/small.c" $(pkg-config --libs oatlantern)
    says "$1: the small C program" "linked, written, mended $version" "$run" "$tmp/small"
    holds "$1: the page's example" $CC -std=c99 $words -o "$tmp/example" "$tmp/example.c" $(pkg-config --libs oatlantern)
    says "$1: the page's example" "$(cat "$tmp/example.wanted")" "$run" "$tmp/example"
    holds "$1: the page's part of a program" $CC -std=c99 $words -c -o "$tmp/part.o" "$tmp/part.c"
    if command -v "$CXX" > /dev/null; then
        holds "$1: the small C++ program" $CXX $cxx_flags -std=c++11 -Wold-style-cast $words -o "$tmp/small" "$tmp/small.cpp" \
            $(pkg-config --libs oatlantern)
        says "$1: the small C++ program" "linked, written, mended $version" "$run" "$tmp/small"
    fi
}
against "$tmp/usr/lib/pkgconfig"
mkdir "$tmp/away"
mv "$tmp/usr" "$tmp/away/tree"
against "$tmp/away/tree/lib/pkgconfig"
fails "oatlantern.pc names the folder that it was installed in" grep -q "$tmp" "$tmp/away/tree/lib/pkgconfig/oatlantern.pc"

# ---- Other folders, and away again ----

holds "another LIBDIR" make install PREFIX="$tmp/deep" LIBDIR="$tmp/deep/lib/some/where"
mv "$tmp/deep" "$tmp/away/deep"
against "$tmp/away/deep/lib/some/where/pkgconfig"
holds "folders outside the prefix" make install PREFIX="$tmp/p" LIBDIR="$tmp/l" INCLUDEDIR="$tmp/i" PKGCONFIGDIR="$tmp/c"
against "$tmp/c"
fails "a relative PREFIX" make install PREFIX=usr
fails "a relative PREFIX installs" test -e usr

holds "DESTDIR" make install DESTDIR="$tmp/stage" PREFIX=/opt/oatlantern
holds "DESTDIR is not honoured" test -f "$tmp/stage/opt/oatlantern/lib/liboatlantern.a"
holds "the prefix in oatlantern.pc" grep -qx 'prefix=${pcfiledir}/../..' "$tmp/stage/opt/oatlantern/lib/pkgconfig/oatlantern.pc"
holds "uninstall" make uninstall DESTDIR="$tmp/stage" PREFIX=/opt/oatlantern
says "uninstall leaves files" "" find "$tmp/stage" ! -type d

# ---- A copy of the repository ----

copy=$tmp/copy
mkdir -p "$copy/target"
(cd "$root" && tar -c --exclude='crates/*/out' crates crates.txt host include run README.md CHANGELOG.md target/host) | tar -x -C "$copy"
for p in list hear salvager excite; do
    mkdir "$copy/crates/$p/out"
    cp -p "../crates/$p/out/$p" "$copy/crates/$p/out"
done
# a function that no one proves: its sum may be too large
spoil='fn unproved(a: u8) -> u8 { a + 1 }'

# what rt built is replaced, and the program's crate is not proved: nothing is installed
cp "$copy/crates/list/src/main.rt" "$tmp/main.rt"
echo "$spoil" >> "$copy/crates/list/src/main.rt"
printf '#!/bin/sh\necho stale\n' > "$copy/crates/list/out/list"
fails "an unproved program is installed" make -C "$copy/host" install PREFIX="$copy/installed"
holds "rt's words are not shown" grep -q 'only a proved crate is built' "$tmp/said"
fails "something is installed though a program is not proved" test -e "$copy/installed"
# proved again, it is made again
cp "$tmp/main.rt" "$copy/crates/list/src/main.rt"
holds "the program is proved again" make -C "$copy/host" install PREFIX="$copy/installed"
holds "a stale program is installed" cmp ../crates/list/out/list "$copy/installed/bin/oatlantern-list"

# one of the crates that the archive calls is not proved: nothing is built, and nothing installed
rm -r "$copy/installed" "$copy/target/host/oatlantern" "$copy/target/host/oatlantern-decode"
for crate in player gateway; do
    cp "$copy/crates/$crate/src/lib.rt" "$tmp/lib.rt"
    echo "$spoil" >> "$copy/crates/$crate/src/lib.rt"
    fails "$crate is not proved, and is installed" make -C "$copy/host" install PREFIX="$copy/installed"
    holds "rt's words are not shown" grep -q "the library $crate did not build" "$tmp/said"
    fails "the command is built though $crate is not proved" test -e "$copy/target/host/oatlantern"
    fails "a program is built though $crate is not proved" test -e "$copy/target/host/oatlantern-decode"
    fails "something is installed though $crate is not proved" test -e "$copy/installed"
    cp "$tmp/lib.rt" "$copy/crates/$crate/src/lib.rt"
    cp -p "$root/target/host/${crate}_c.o" "$root/target/host/${crate}_c.made" "$copy/target/host"
done

# whatever stands there in the place of a member and of the archive, they are made anew
echo stale > "$copy/target/host/player_c.o"
echo stale > "$copy/target/host/liboatlantern.a"
holds "the archive is made anew" make -C "$copy/host" archive
holds "the archive is a stale one" cmp ../target/host/liboatlantern.a "$copy/target/host/liboatlantern.a"

# packages: nothing is said where nothing is missing; where one cannot be installed, one line says which, and nothing is built
says "packages, nothing missing" "" "$copy/host/packages.sh"
mkdir "$tmp/nobody"
printf '#!/bin/sh\necho 1000\n' > "$tmp/nobody/id"
chmod +x "$tmp/nobody/id"
missing() { # VARIABLE WORDS
    fails "$1 is missing, and make goes on" env "$1=no-such-thing" PATH="$tmp/nobody:$PATH" make -s -C "$copy/host" archive
    holds "$1 is missing: what is said" grep -qx "host/packages.sh: missing: apt-get install $2.*" "$tmp/said"
}
case $(uname -m) in
x86_64 | amd64) missing SQLITE libsqlite3-dev ;;
*)
    missing SQLITE libsqlite3-dev:amd64
    missing CXX g++-x86-64-linux-gnu
    ;;
esac

# ---- The README's lines for C ----

# lines of the code block under `From C`: commands, and what they print
sed -n '/^## From C/,/^[A-Z]/s/^    //p' ../README.md > "$tmp/block"
sed -n 's/^\$ //p' "$tmp/block" > "$tmp/commands"
grep -v '^\$ ' "$tmp/block" > "$tmp/wanted"
says "the README has three lines for C" 3 grep -c . "$tmp/commands"

# readme: its lines, from the top of the copy with no program built; of what they print, what make does not
readme() {
    rm -f "$copy/target/host/oatlantern" "$copy"/target/host/oatlantern-*
    (cd "$copy" && sh -e "$tmp/commands") > "$tmp/log" 2>&1 || return 1
    grep -x '[0-9 ]* [cpd]' "$tmp/log" > "$tmp/got"
    cmp "$tmp/wanted" "$tmp/got" && [ -x "$copy/target/installed/bin/oatlantern" ] &&
        [ -x "$copy/target/installed/bin/oatlantern-list" ]
}
readme || fail "the README's lines"
checks=$((checks + 1))

# The same as on another machine: uname says so, its own compilers make nothing that links with the archive, and the emulator
# is a script that starts the loader which it is given. rt itself is this machine's.
if [ "$(uname -m)" = x86_64 ]; then
    here=$PATH
    kit=$(dirname "$(dirname "$(readlink -f "$(command -v rt)")")")
    mkdir -p "$tmp/other/bin"
    ln -s "$kit/toolchain" "$tmp/other/toolchain"
    script() { # FILE LINES
        printf '#!/bin/sh\n%s\n' "$2" > "$tmp/other/$1"
        chmod +x "$tmp/other/$1"
    }
    script bin/uname 'echo aarch64'
    for c in cc gcc c++ g++ clang; do script bin/$c 'echo "file in wrong format" >&2; exit 1'; done
    for c in gcc:cc g++:c++ ar:ar; do
        native=$(command -v "${c#*:}")
        script "bin/x86_64-linux-gnu-${c%:*}" "echo ${c%:*} \"\$@\" >> '$tmp/crossed'; PATH='$here' exec '$native' \"\$@\""
    done
    script bin/rt "PATH='$here' exec rt \"\$@\""
    script bin/qemu-x86_64 "echo emulated >> '$tmp/emulated'; exec \"\$@\""
    (
        unset CC CXX AR SQLITE
        PATH="$tmp/other/bin:$PATH"
        export PATH
        readme
    ) || fail "the README's lines on another machine"
    checks=$((checks + 1))
    says "programs linked by the cross compiler" 2 grep -c '^gcc .* [de][en]code\.c ' "$tmp/crossed"
    says "the command linked by the cross compiler" 1 grep -c '^gcc .* oatlantern\.c ' "$tmp/crossed"
    holds "programs run by the emulator" test -s "$tmp/emulated"
fi

echo "host/test-install.sh: installed, linked and run: $checks checks, 0 failed"
