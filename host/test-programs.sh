#!/bin/sh
# Tries the header and the host programs, the latter as built and again under the sanitizers (tools.sh says which): there and back, the
# refusals, malformed and very long lines. Then the salvaging program, which rt builds: on each sample, what it says where it refuses, and
# an argument, an input and outputs that fail. Silent but for the last line; exit status 1 at the first fault.
set -eu
cd "$(dirname "$0")"
. ./tools.sh

out=../target/host
tmp=$(mktemp -d)
trap 'rm -rf "$tmp"' EXIT
trap 'exit 1' HUP INT TERM
checks=0

fail() {
    echo "host/test-programs.sh: $1" >&2
    exit 1
}

make -s all > "$tmp/log" 2>&1 || { cat "$tmp/log" >&2; fail "make"; }
mkdir -p $out/sanitized
# the words of $sanitizers and of other flags are split on purpose
for p in decode encode; do
    $CC -std=c99 -Wall -Wextra -pedantic -Werror -g -O1 $sanitizers \
        -I../include -o $out/sanitized/oatlantern-$p $p.c $out/liboatlantern.a
done

# The header has no warning, by itself and where every function of it is used, in any version of C or C++ that the compiler knows.
strict='-Wall -Wextra -pedantic -Wconversion -Wsign-conversion -Wshadow -Wcast-qual -Wundef -Werror'
plain() { # COMPILER STANDARD FLAGS SUFFIX
    echo 'int main(void) { return 0; }' > "$tmp/empty.$4"
    $1 -std="$2" -o "$tmp/empty" "$tmp/empty.$4" 2> "$tmp/log" || return 0
    echo '#include "oatlantern.h"' > "$tmp/alone.$4"
    cp test-header.c "$tmp/uses.$4"
    for f in alone uses; do
        $1 -std="$2" $strict $3 -I../include -c -o "$tmp/$f.o" "$tmp/$f.$4" > "$tmp/log" 2>&1 && [ ! -s "$tmp/log" ] ||
            { cat "$tmp/log" >&2; fail "the header, $1 -std=$2"; }
        checks=$((checks + 1))
    done
}
for standard in c99 c11 c17 c2x; do
    plain "$CC" $standard '-Wstrict-prototypes -Wmissing-prototypes' c
done
for standard in c++98 c++11 c++17 c++20; do
    command -v "$CXX" > /dev/null || continue
    plain "$CXX" $standard -Wold-style-cast cpp
done
[ $checks -ge 6 ] || fail "the header was compiled in too few versions"

# Its inline functions, in C and in C++, under the sanitizers: against the archive, and against the table of guarded places.
awk '{
    field = 0; bit = 0
    if ($3 ~ /^P[DG]/) { field = 10 + 4 * (substr($3, 4, 1) - 1) + (substr($3, 2, 1) == "D" ? 1 : 2); bit = substr($3, 7) }
    if ($3 == "SP") field = 27
    print $1, $2, field, bit
}' ../outside/tables/guarded.txt > "$tmp/guarded"
inline() { # COMPILER AND FLAGS
    $1 $strict -g -O1 $sanitizers -I../include -o "$tmp/test-header" test-header.c -x none $out/liboatlantern.a
    "$run" "$tmp/test-header" 20000 < "$tmp/guarded" > "$tmp/got" || fail "the inline functions, $1"
    checks=$((checks + $(cat "$tmp/got")))
}
inline "$CC -std=c99"
if command -v "$CXX" > /dev/null; then inline "$CXX -std=c++11 -Wold-style-cast $cxx_flags -x c++"; fi

# The version is that of the newest entry in the list of changes.
version=$(sed -n 's/^.define OATLANTERN_VERSION "\(.*\)"$/\1/p' ../include/oatlantern.h)
[ "$(sed -n 's/^## \([0-9.]*\).*/\1/p' ../CHANGELOG.md | head -n 1)" = "$version" ] || fail "CHANGELOG.md does not begin with $version"
checks=$((checks + 1))

# same WHAT FILE FILE
same() {
    cmp -s "$2" "$3" || fail "$bin: $1"
    checks=$((checks + 1))
}

# refused WHAT PROGRAM INPUT STATUS MESSAGE: the program ends so and says exactly this one line. What it wrote is in $tmp/got.
refused() {
    status=0
    "$run" "$bin/$2" < "$3" > "$tmp/got" 2> "$tmp/said" || status=$?
    [ $status -eq "$4" ] || fail "$bin: $1: status $status"
    printf '%s\n' "$5" > "$tmp/wanted"
    same "$1: what it says" "$tmp/wanted" "$tmp/said"
}

# Lines of records that the writer takes, made by a small sequence of numbers: the parameters from rows in order (in the last row two are
# equal), the subframe indices over their whole widths, SP 0.
lines() {
    awk -v count="$1" 'BEGIN {
        row[0] = "0 0 0 0 0 0 0 0 0 0"
        row[1] = "3 3 3 3 3 3 3 3 3 3"
        row[2] = "7 15 15 15 15 7 7 7 7 7"
        row[3] = "4 8 5 9 10 5 5 4 4 4"
        row[4] = "1 5 0 1 2 0 0 0 0 0"
        row[5] = "0 0 0 12 9 3 3 3 3 3"
        split("8 5 9 5 6 5 9 5 8 5 9 5 6 5 9 5", width, " ")
        x = 1
        for (n = 0; n < count; n++) {
            line = row[n % 6]
            for (f = 1; f <= 16; f++) {
                x = (x * 25173 + 13849) % 65536
                line = line " " int(x / 16) % 2 ^ width[f]
            }
            print line " 0 " n % 2
        }
    }'
}

for bin in $out $out/sanitized; do
    # There and back.
    lines 1000 > "$tmp/lines"
    "$run" "$bin/oatlantern-encode" < "$tmp/lines" > "$tmp/frames"
    [ "$(wc -c < "$tmp/frames")" -eq $((18 * $(wc -l < "$tmp/lines"))) ] || fail "$bin: the frames' size"
    "$run" "$bin/oatlantern-decode" < "$tmp/frames" > "$tmp/read"
    sed 's/$/ 0 0 c/' "$tmp/lines" > "$tmp/wanted"
    same "records come back, number and mark 0, clean" "$tmp/wanted" "$tmp/read"
    "$run" "$bin/oatlantern-encode" < "$tmp/read" > "$tmp/again"
    same "clean frames come back" "$tmp/frames" "$tmp/again"
    sed 's/ c$//' "$tmp/read" | "$run" "$bin/oatlantern-encode" > "$tmp/again"
    same "and without the letter" "$tmp/frames" "$tmp/again"

    # Other layouts of the same numbers.
    sed 's/ /\t  /g; s/^/ /; s/$/ \r/' "$tmp/lines" | "$run" "$bin/oatlantern-encode" > "$tmp/again"
    same "spaces, tabs, carriage returns" "$tmp/frames" "$tmp/again"
    sed 's/\([0-9][0-9]*\)/000000000000000000000000\1/g' "$tmp/lines" | "$run" "$bin/oatlantern-encode" > "$tmp/again"
    same "leading zeros" "$tmp/frames" "$tmp/again"
    printf '%s' "$(cat "$tmp/lines")" | "$run" "$bin/oatlantern-encode" > "$tmp/again"
    same "no newline at the end" "$tmp/frames" "$tmp/again"

    # The worked frames: zero; only place 104; only places 11 and 61; only place 21.
    z='\0\0\0\0\0\0\0\0\0\0\0\0\0\0\0\0\0\0'
    printf "$z"'\0\0\0\0\0\0\0\0\0\0\0\0\1\0\0\0\0\0\0\40\0\0\0\0\0\10\0\0\0\0\0\0\0\0\0\0\0\0\10\0\0\0\0\0\0\0\0\0\0\0\0\0\0\0' > "$tmp/worked"
    "$run" "$bin/oatlantern-decode" < "$tmp/worked" > "$tmp/read"
    {
        echo '0 0 0 0 0 0 0 0 0 0 0 0 0 0 0 0 0 0 0 0 0 0 0 0 0 0 0 0 0 0 c'
        echo '0 0 0 0 0 0 0 0 0 0 0 0 0 0 0 0 0 0 0 0 0 0 0 0 0 0 0 0 15 0 d'
        echo '0 0 0 0 0 0 0 0 0 0 224 0 0 0 0 0 0 0 0 0 0 0 0 0 0 0 0 0 6 0 d'
        echo '0 0 0 0 0 0 0 0 0 0 0 0 0 0 0 0 0 0 0 0 0 0 0 0 0 0 0 0 1 0 p'
    } > "$tmp/wanted"
    same "worked frames" "$tmp/wanted" "$tmp/read"

    # A mended frame is written as it was mended.
    sed -n '2p' "$tmp/read" | "$run" "$bin/oatlantern-encode" > "$tmp/again"
    printf "$z" > "$tmp/wanted"
    same "a mended frame" "$tmp/wanted" "$tmp/again"

    # Nothing in, nothing out.
    "$run" "$bin/oatlantern-decode" < /dev/null > "$tmp/read"
    "$run" "$bin/oatlantern-encode" < /dev/null > "$tmp/again"
    same "nothing" "$tmp/read" "$tmp/again"
    same "nothing" /dev/null "$tmp/again"

    # A part of a frame at the end, after a whole one.
    head -c 25 "$tmp/worked" > "$tmp/part"
    refused "part of a frame" oatlantern-decode "$tmp/part" 1 'oatlantern-decode: frame 2: refused 1: the frame is not 18 bytes or the record not 56 (7 bytes are left)'
    echo '0 0 0 0 0 0 0 0 0 0 0 0 0 0 0 0 0 0 0 0 0 0 0 0 0 0 0 0 0 0 c' > "$tmp/wanted"
    same "the frame before it" "$tmp/wanted" "$tmp/got"

    # What the corrections changed, on standard error; the lines are the same.
    cp "$tmp/worked" "$tmp/in"
    "$run" "$bin/oatlantern-decode" < "$tmp/in" > "$tmp/read"
    "$run" "$bin/oatlantern-decode" -v < "$tmp/in" > "$tmp/got" 2> "$tmp/said"
    same "-v: the lines" "$tmp/read" "$tmp/got"
    {
        echo 'oatlantern-decode: frame 2: correction number 15: bit 0 of field 27 was inverted'
        echo 'oatlantern-decode: frame 3: correction number 6: bit 7 of field 11 was inverted'
        echo 'oatlantern-decode: frame 4: correction number 1: a parity bit, no index was changed'
    } > "$tmp/wanted"
    same "-v: the corrections" "$tmp/wanted" "$tmp/said"

    # Refused and malformed lines, each as line 2 after a sound one: only the first frame is written.
    sound='0 0 0 0 0 0 0 0 0 0 0 0 0 0 0 0 0 0 0 0 0 0 0 0 0 0 0 0'
    printf "$z" > "$tmp/first"
    bad() {
        printf '%s\n%s\n%s\n' "$sound" "$1" "$sound" > "$tmp/in"
        refused "$1" oatlantern-encode "$tmp/in" 1 "oatlantern-encode: line 2: $2"
        same "$1: only the line before it is written" "$tmp/first" "$tmp/got"
    }
    large='refused 2: an index is too large for its field'
    bad '8 0 0 0 0 0 0 0 0 0 0 0 0 0 0 0 0 0 0 0 0 0 0 0 0 0 0 0' "$large (field 1)"
    bad '0 0 0 0 0 0 0 0 0 0 256 0 0 0 0 0 0 0 0 0 0 0 0 0 0 0 0 2' "$large (field 11)"
    bad '0 0 0 0 0 0 0 0 0 0 0 0 0 0 0 0 0 0 0 0 0 0 0 0 0 0 0 2' "$large (field 28)"
    bad '0 0 0 0 0 0 0 0 0 0 0 0 0 0 0 0 0 0 0 0 0 0 0 0 0 0 2 0' "$large (field 27)"
    bad '65536 0 0 0 0 0 0 0 0 0 0 0 0 0 0 0 0 0 0 0 0 0 0 0 0 0 0 0' "$large (field 1)"
    bad '0 4294967296 0 0 0 0 0 0 0 0 0 0 0 0 0 0 0 0 0 0 0 0 0 0 0 0 0 0' "$large (field 2)"
    bad '0 0 18446744073709551616 0 0 0 0 0 0 0 0 0 0 0 0 0 0 0 0 0 0 0 0 0 0 0 0 0' "$large (field 3)"
    bad '7 0 0 0 0 0 0 0 0 0 0 0 0 0 0 0 0 0 0 0 0 0 0 0 0 0 0 0' 'refused 3: the line spectral parameters fall'
    bad '7 0 0 0 0 0 0 0 0 0 0 0 0 0 0 0 0 0 0 0 0 0 0 0 0 0 1 0' 'refused 3: the line spectral parameters fall'
    bad '0 0 0 0 0 0 0 0 0 0 0 0 0 0 0 0 0 0 0 0 0 0 0 0 0 0 1 0' 'refused 6: the expansion bit SP is set'
    bad '' 'malformed: 0 numbers, not 28 or 30'
    bad '0 0 0' 'malformed: 3 numbers, not 28 or 30'
    bad "$sound 0" 'malformed: 29 numbers, not 28 or 30'
    bad "$sound 0 0 0" 'malformed: 31 numbers, not 28 or 30'
    bad "$sound 0 0 c 0" 'malformed: 31 numbers, not 28 or 30'
    bad "x $sound" 'malformed: byte 0x78 is no digit and no space'
    bad "$sound c" 'malformed: byte 0x63 is no digit and no space'
    bad "$sound 0 0 x" 'malformed: byte 0x78 is no digit and no space'
    bad "$sound 0 0c" 'malformed: byte 0x63 is no digit and no space'
    bad "$sound 0 0 p d" 'malformed: byte 0x64 is no digit and no space'
    bad "-1 $sound" 'malformed: byte 0x2d is no digit and no space'
    bad "0x1 $sound" 'malformed: byte 0x78 is no digit and no space'
    printf '%s\n\0%s\n' "$sound" "$sound" > "$tmp/in"
    refused "a zero byte" oatlantern-encode "$tmp/in" 1 'oatlantern-encode: line 2: malformed: byte 0x00 is no digit and no space'
    printf '%s\n\377\n' "$sound" > "$tmp/in"
    refused "byte 255" oatlantern-encode "$tmp/in" 1 'oatlantern-encode: line 2: malformed: byte 0xff is no digit and no space'

    # Lines of a million bytes: spaces, digits, numbers.
    head -c 1000000 /dev/zero | tr '\0' ' ' > "$tmp/in"
    echo "$sound" >> "$tmp/in"
    "$run" "$bin/oatlantern-encode" < "$tmp/in" > "$tmp/again"
    same "a million spaces" "$tmp/first" "$tmp/again"
    { head -c 1000000 /dev/zero | tr '\0' 9; echo " ${sound#0 }"; } > "$tmp/in"
    refused "a million digits" oatlantern-encode "$tmp/in" 1 "oatlantern-encode: line 1: $large (field 1)"
    { head -c 1000000 /dev/zero | tr '\0\n' '0 ' | sed 's/0/0 /g'; echo; } > "$tmp/in"
    refused "a million numbers" oatlantern-encode "$tmp/in" 1 'oatlantern-encode: line 1: malformed: 1000000 numbers, not 28 or 30'

    # Arguments, and an output that takes nothing.
    for p in 'decode --what' 'decode -v -v' 'decode -v --what' 'encode --what' 'encode -v'; do
        status=0
        # the words are split on purpose
        "$run" "$bin"/oatlantern-$p < /dev/null > "$tmp/got" 2> "$tmp/said" || status=$?
        [ $status -eq 2 ] && [ ! -s "$tmp/got" ] || fail "$bin: $p: status $status"
        grep -q '^usage: oatlantern-' "$tmp/said" || fail "$bin: $p: no usage"
        checks=$((checks + 1))
    done
    if [ -e /dev/full ]; then
        status=0
        "$run" "$bin/oatlantern-decode" < "$tmp/frames" > /dev/full 2> "$tmp/said" || status=$?
        [ $status -eq 1 ] && [ "$(wc -l < "$tmp/said")" -eq 1 ] || fail "$bin: decode on a full output: status $status"
        status=0
        "$run" "$bin/oatlantern-encode" < "$tmp/lines" > /dev/full 2> "$tmp/said" || status=$?
        [ $status -eq 1 ] && [ "$(wc -l < "$tmp/said")" -eq 1 ] || fail "$bin: encode on a full output: status $status"
        checks=$((checks + 2))
    fi
done

# The salvaging program on each sample: the changes, and the result, which is the recording itself where nothing was changed and nothing
# where it is refused. A result comes out unchanged.
bin=../crates/salvager/out
make -s programs > "$tmp/log" 2>&1 || { cat "$tmp/log" >&2; fail "make programs"; }
for recording in ../samples/*.rec; do
    name=${recording%.rec}
    "$run" $bin/salvager < "$recording" > "$tmp/got" 2> "$tmp/said" || fail "salvager: $recording: status $?"
    same "salvager: $recording: the changes" "$name.changes" "$tmp/said"
    wanted=/dev/null
    [ -s "$name.changes" ] || wanted=$recording
    [ ! -e "$name.salvaged" ] || wanted=$name.salvaged
    same "salvager: $recording: the result" "$wanted" "$tmp/got"
    [ -s "$tmp/got" ] || continue
    "$run" $bin/salvager < "$tmp/got" > "$tmp/again" 2> "$tmp/said" || fail "salvager: $recording: status $? on the result"
    same "salvager: $recording: changes of the result" /dev/null "$tmp/said"
    same "salvager: $recording: the result once more" "$tmp/got" "$tmp/again"
done

# salvager_says WHAT LINE COMMAND..: it writes nothing, says exactly this one line and ends with 0
salvager_says() {
    what=$1
    printf '%s\n' "$2" > "$tmp/wanted"
    shift 2
    "$@" > "$tmp/got" 2> "$tmp/said" || fail "salvager: $what: status $?"
    same "salvager: $what: what it says" "$tmp/wanted" "$tmp/said"
    same "salvager: $what: it writes something" /dev/null "$tmp/got"
}
dropped=../samples/dropped-later.rec
unwritten='oatlantern-salvage: standard output cannot be written'
head -c 65537 /dev/zero > "$tmp/in"
salvager_says "too long" 'refused 1' "$run" $bin/salvager < "$tmp/in"
head -c 65536 /dev/zero > "$tmp/in"
salvager_says "no head" 'refused 12' "$run" $bin/salvager < "$tmp/in"
salvager_says "an argument" 'usage: oatlantern-salvage <recording >salvaged' "$run" $bin/salvager $dropped < $dropped
salvager_says "an input that cannot be read" 'oatlantern-salvage: standard input cannot be read' "$run" $bin/salvager < .
salvager_says "a closed output" "$unwritten" sh -c '"$@" >&-' sh "$run" $bin/salvager < $dropped
if [ -e /dev/full ]; then
    salvager_says "a full output" "$unwritten" sh -c '"$@" > /dev/full' sh "$run" $bin/salvager < $dropped
    salvager_says "a full output, of a sound recording" "$unwritten" sh -c '"$@" > /dev/full' sh "$run" $bin/salvager < ../samples/sound.rec
fi

[ $checks -gt 0 ] || fail "nothing was checked"
echo "host/test-programs.sh: $checks checks, 0 failed"
