#!/bin/sh
# Tries the header, and the command oatlantern as built and again under the sanitizers (tools.sh says which): frames there and
# back and what is refused of them; list, hear, excite and salvage on every sample, one by one and together; each exit status in
# each way that leads there. The tally book has its own test. Silent but for the last line; exit status 1 at the first fault.
set -eu
cd "$(dirname "$0")"
. ./tools.sh

out=../target/host
tmp=$(mktemp -d)
trap 'rm -rf "$tmp"' EXIT
trap 'exit 1' HUP INT TERM
checks=0
bin=

fail() {
    echo "host/test.sh: ${bin:+$bin: }$1" >&2
    exit 1
}

make -s all > "$tmp/log" 2>&1 || { cat "$tmp/log" >&2; fail "make"; }

# The header has no warning, by itself and where every function of it is used, in any version of C or C++ that the compiler knows;
# nor have the sources of the command. The words of flags are split on purpose.
strict='-Wall -Wextra -pedantic -Wconversion -Wsign-conversion -Wshadow -Wcast-qual -Wundef -Werror'
prototypes='-Wstrict-prototypes -Wmissing-prototypes'
mkdir -p $out/sanitized
$CC -std=c99 $strict $prototypes -g -O1 $sanitizers -I../include -o $out/sanitized/oatlantern \
    oatlantern.c recordings.c frames.c tally.c book.c $out/liboatlantern.a $SQLITE || fail "the sanitized command"
plain() { # COMPILER STANDARD FLAGS SUFFIX
    echo 'int main(void) { return 0; }' > "$tmp/empty.$4"
    $1 -std="$2" -o "$tmp/empty" "$tmp/empty.$4" 2> "$tmp/log" || return 0
    echo '#include "oatlantern.h"' > "$tmp/alone.$4"
    cp test-header.c "$tmp/uses.$4"
    for f in alone uses; do
        $1 -std="$2" $strict $3 -I../include -c -o "$tmp/$f.o" "$tmp/$f.$4" > "$tmp/log" 2>&1 && [ ! -s "$tmp/log" ] ||
            { cat "$tmp/log" >&2; fail "the header, $1 -std=$2"; }
        checks=$((checks + 1))
    done
}
for standard in c99 c11 c17 c2x; do
    plain "$CC" $standard "$prototypes" c
done
for standard in c++98 c++11 c++17 c++20; do
    command -v "$CXX" > /dev/null || continue
    plain "$CXX" $standard -Wold-style-cast cpp
done
[ $checks -ge 6 ] || fail "the header was compiled in too few versions"

# Its functions, in C and in C++, under the sanitizers: against the archive, and against the table of guarded places.
awk '{
    field = 0; bit = 0
    if ($3 ~ /^P[DG]/) { field = 10 + 4 * (substr($3, 4, 1) - 1) + (substr($3, 2, 1) == "D" ? 1 : 2); bit = substr($3, 7) }
    if ($3 == "SP") field = 27
    print $1, $2, field, bit
}' ../outside/tables/guarded.txt > "$tmp/guarded"
functions() { # COMPILER AND FLAGS
    $1 $strict -g -O1 $sanitizers -I../include -o "$tmp/test-header" test-header.c -x none $out/liboatlantern.a
    "$run" "$tmp/test-header" 10000 < "$tmp/guarded" > "$tmp/got" || fail "the functions of the header, $1"
    checks=$((checks + $(cat "$tmp/got")))
}
functions "$CC -std=c99"
if command -v "$CXX" > /dev/null; then functions "$CXX -std=c++11 -Wold-style-cast $cxx_flags -x c++"; fi

# The version is that of the newest entry in the list of changes.
version=$(sed -n 's/^.define OATLANTERN_VERSION "\(.*\)"$/\1/p' ../include/oatlantern.h)
newest=$(sed -n 's/^## \([0-9.]*\).*/\1/p' ../CHANGELOG.md | head -n 1)
[ "$newest" = "$version" ] || fail "CHANGELOG.md begins with $newest, not $version"
checks=$((checks + 1))

# ---- The words of refusals ----

# of each cause, and of the tally book's refusals, the name that the handbook has for it and the header's words
cat > "$tmp/words.c" << 'END'
#include <stdio.h>
#include "oatlantern.h"

static void cause(const char *name, size_t number)
{
    printf("%s %s\n", name, oatlantern_cause_words(number));
}

static void refusal(const char *name, int number)
{
    printf("%s %s\n", name, oatlantern_refusal_words(number));
}

int main(void)
{
    cause("TooLong", OATLANTERN_TOO_LONG);
    cause("HeaderCut", OATLANTERN_HEADER_CUT);
    cause("PastEnd", OATLANTERN_PAST_END);
    cause("WrongSize", OATLANTERN_WRONG_SIZE);
    cause("UnknownKind", OATLANTERN_UNKNOWN_KIND);
    cause("OutOfTurn", OATLANTERN_OUT_OF_TURN);
    cause("EndMissing", OATLANTERN_END_MISSING);
    cause("WrongCount", OATLANTERN_WRONG_COUNT);
    cause("Extra", OATLANTERN_EXTRA);
    refusal("OtherCount", OATLANTERN_REFUSED_OTHER_COUNT);
    refusal("Full", OATLANTERN_REFUSED_FULL);
    refusal("NothingKept", OATLANTERN_REFUSED_NOTHING_KEPT);
    return 0;
}
END
$CC -std=c99 $strict -I../include -o "$tmp/words" "$tmp/words.c"
"$run" "$tmp/words" > "$tmp/words.txt"
words_of() { sed -n "s/^$1 //p" "$tmp/words.txt"; }

# those of the handbook's table, in the row that ends in the name
for c in TooLong HeaderCut PastEnd WrongSize UnknownKind OutOfTurn EndMissing WrongCount Extra OtherCount Full; do
    row=$(sed -n "s/^| [0-9]* | \(.*\) <!-- $c --> |.*/\1/p" ../docs/HANDBOOK.md)
    [ "$row" = "$(words_of $c)" ] || fail "docs/HANDBOOK.md, $c: \"$row\", in the header \"$(words_of $c)\""
    checks=$((checks + 1))
done

# the cause of each sample that is refused
cause_of() {
    case $1 in
    empty | no-end) echo EndMissing ;;
    dropped | dropped-later | bad-length | wild-length) echo PastEnd ;;
    wrong-size | empty-voice | long-head) echo WrongSize ;;
    cut) echo HeaderCut ;;
    unknown-kind) echo UnknownKind ;;
    out-of-turn) echo OutOfTurn ;;
    wrong-count) echo WrongCount ;;
    after-the-end) echo Extra ;;
    *) fail "samples/$1.rec is refused, and this test does not know why" ;;
    esac
}

# ---- How a command is tried ----

# same WHAT FILE FILE
same() {
    cmp -s "$2" "$3" || { diff "$2" "$3" | head -n 5 >&2; fail "$1"; }
    checks=$((checks + 1))
}

# ends WHAT STATUS COMMAND..: the command ends so. What it printed is in $tmp/got, and what it said in $tmp/said.
ends() {
    what=$1 wanted=$2 status=0
    shift 2
    "$@" > "$tmp/got" 2> "$tmp/said" || status=$?
    [ $status -eq "$wanted" ] || { cat "$tmp/said" >&2; fail "$what: status $status"; }
    checks=$((checks + 1))
}

# says WHAT STATUS LINE COMMAND..: it ends so, and says exactly this one line
says() {
    printf '%s\n' "$3" > "$tmp/wanted"
    line_of=$1 status_of=$2
    shift 3
    ends "$line_of" "$status_of" "$@"
    same "$line_of: what it says" "$tmp/wanted" "$tmp/said"
}

# the command, whatever runs it
oatlantern() { "$run" "$bin/oatlantern" "$@"; }
oatlantern_from() { # FILE ARGUMENT..
    from=$1
    shift
    "$run" "$bin/oatlantern" "$@" < "$from"
}
oatlantern_to() { # FILE ARGUMENT..
    to=$1
    shift
    "$run" "$bin/oatlantern" "$@" > "$to"
}
to_closed() { "$run" "$bin/oatlantern" "$@" >&-; }
from_closed() { "$run" "$bin/oatlantern" "$@" <&-; }

# Lines of records that the writer takes, made by a small sequence of numbers: the parameters from rows in order (in the last row
# two are equal), the subframe indices over their whole widths, SP 0.
lines() {
    awk -v count="$1" 'BEGIN {
        row[0] = "0 0 0 0 0 0 0 0 0 0"
        row[1] = "3 3 3 3 3 3 3 3 3 3"
        row[2] = "7 15 15 15 15 7 7 7 7 7"
        row[3] = "4 8 5 9 10 5 5 4 4 4"
        row[4] = "1 5 0 1 2 0 0 0 0 0"
        row[5] = "0 0 0 12 9 3 3 3 3 3"
        split("8 5 9 5 6 5 9 5 8 5 9 5 6 5 9 5", width, " ")
        x = 1
        for (n = 0; n < count; n++) {
            line = row[n % 6]
            for (f = 1; f <= 16; f++) {
                x = (x * 25173 + 13849) % 65536
                line = line " " int(x / 16) % 2 ^ width[f]
            }
            print line " 0 " n % 2
        }
    }'
}
lines 1000 > "$tmp/lines"
sed 's/$/ 0 0 c/' "$tmp/lines" > "$tmp/lines.decoded"
# The worked frames: zero; only place 104; only places 11 and 61; only place 21.
z='\0\0\0\0\0\0\0\0\0\0\0\0\0\0\0\0\0\0'
{
    printf "$z"
    printf '\0\0\0\0\0\0\0\0\0\0\0\0\1\0\0\0\0\0'
    printf '\0\40\0\0\0\0\0\10\0\0\0\0\0\0\0\0\0\0'
    printf '\0\0\10\0\0\0\0\0\0\0\0\0\0\0\0\0\0\0'
} > "$tmp/worked"
printf "$z" > "$tmp/first"
sound='0 0 0 0 0 0 0 0 0 0 0 0 0 0 0 0 0 0 0 0 0 0 0 0 0 0 0 0'

# ---- Frames ----

try_frames() {
    # There and back.
    ends "encode" 0 oatlantern_from "$tmp/lines" encode
    cp "$tmp/got" "$tmp/frames"
    [ "$(wc -c < "$tmp/frames")" -eq $((18 * $(wc -l < "$tmp/lines"))) ] || fail "the frames' size"
    ends "decode" 0 oatlantern decode "$tmp/frames"
    same "records come back, number and mark 0, clean" "$tmp/lines.decoded" "$tmp/got"
    ends "encode a file" 0 oatlantern encode "$tmp/lines.decoded"
    same "clean frames come back" "$tmp/frames" "$tmp/got"
    sed 's/ c$//' "$tmp/lines.decoded" > "$tmp/in"
    ends "encode -" 0 oatlantern_from "$tmp/in" encode -
    same "and without the letter" "$tmp/frames" "$tmp/got"

    # Other layouts of the same numbers.
    sed 's/ /\t  /g; s/^/ /; s/$/ \r/' "$tmp/lines" > "$tmp/in"
    ends "spaces, tabs, carriage returns" 0 oatlantern encode "$tmp/in"
    same "spaces, tabs, carriage returns" "$tmp/frames" "$tmp/got"
    sed 's/\([0-9][0-9]*\)/000000000000000000000000\1/g' "$tmp/lines" > "$tmp/in"
    ends "leading zeros" 0 oatlantern encode "$tmp/in"
    same "leading zeros" "$tmp/frames" "$tmp/got"
    printf '%s' "$(cat "$tmp/lines")" > "$tmp/in"
    ends "no newline at the end" 0 oatlantern encode "$tmp/in"
    same "no newline at the end" "$tmp/frames" "$tmp/got"

    # The worked frames; what the corrections changed goes to standard error, and the lines are the same.
    {
        echo "$sound 0 0 c"
        echo "$sound 15 0 d"
        echo '0 0 0 0 0 0 0 0 0 0 224 0 0 0 0 0 0 0 0 0 0 0 0 0 0 0 0 0 6 0 d'
        echo "$sound 1 0 p"
    } > "$tmp/read"
    ends "worked frames" 0 oatlantern decode -- "$tmp/worked"
    same "worked frames" "$tmp/read" "$tmp/got"
    same "worked frames: it says something" /dev/null "$tmp/said"
    ends "-v" 0 oatlantern_from "$tmp/worked" decode -v
    same "-v: the lines" "$tmp/read" "$tmp/got"
    {
        echo 'oatlantern: standard input: frame 2: correction number 15: bit 0 of field 27 was inverted'
        echo 'oatlantern: standard input: frame 3: correction number 6: bit 7 of field 11 was inverted'
        echo 'oatlantern: standard input: frame 4: correction number 1: a parity bit, no index was changed'
    } > "$tmp/wanted"
    same "-v: the corrections" "$tmp/wanted" "$tmp/said"

    # A mended frame is written as it was mended. Nothing in, nothing out.
    sed -n '2p' "$tmp/read" > "$tmp/in"
    ends "a mended frame" 0 oatlantern encode "$tmp/in"
    same "a mended frame" "$tmp/first" "$tmp/got"
    for p in decode encode; do
        ends "$p: nothing" 0 oatlantern_from /dev/null $p
        same "$p: nothing" /dev/null "$tmp/got"
    done

    # A part of a frame at the end, after a whole one.
    head -c 25 "$tmp/worked" > "$tmp/part"
    length='refused 1: the frame is not 18 bytes or the record not 56'
    says "part of a frame" 1 "oatlantern: $tmp/part: frame 2: $length (7 bytes are left)" oatlantern decode "$tmp/part"
    echo "$sound 0 0 c" > "$tmp/wanted"
    same "the frame before it" "$tmp/wanted" "$tmp/got"

    # Refused and malformed lines, each as line 2 after a sound one: only the first frame is written.
    bad() {
        printf '%s\n%s\n%s\n' "$sound" "$1" "$sound" > "$tmp/in"
        says "$1" 1 "oatlantern: standard input: line 2: $2" oatlantern_from "$tmp/in" encode
        same "$1: only the line before it is written" "$tmp/first" "$tmp/got"
    }
    large='refused 2: an index is too large for its field'
    bad '8 0 0 0 0 0 0 0 0 0 0 0 0 0 0 0 0 0 0 0 0 0 0 0 0 0 0 0' "$large (field 1)"
    bad '0 0 0 0 0 0 0 0 0 0 256 0 0 0 0 0 0 0 0 0 0 0 0 0 0 0 0 2' "$large (field 11)"
    bad '0 0 0 0 0 0 0 0 0 0 0 0 0 0 0 0 0 0 0 0 0 0 0 0 0 0 0 2' "$large (field 28)"
    bad '0 0 0 0 0 0 0 0 0 0 0 0 0 0 0 0 0 0 0 0 0 0 0 0 0 0 2 0' "$large (field 27)"
    bad '65536 0 0 0 0 0 0 0 0 0 0 0 0 0 0 0 0 0 0 0 0 0 0 0 0 0 0 0' "$large (field 1)"
    bad '0 4294967296 0 0 0 0 0 0 0 0 0 0 0 0 0 0 0 0 0 0 0 0 0 0 0 0 0 0' "$large (field 2)"
    bad '0 0 18446744073709551616 0 0 0 0 0 0 0 0 0 0 0 0 0 0 0 0 0 0 0 0 0 0 0 0 0' "$large (field 3)"
    bad '7 0 0 0 0 0 0 0 0 0 0 0 0 0 0 0 0 0 0 0 0 0 0 0 0 0 0 0' 'refused 3: the line spectral parameters fall'
    bad '7 0 0 0 0 0 0 0 0 0 0 0 0 0 0 0 0 0 0 0 0 0 0 0 0 0 1 0' 'refused 3: the line spectral parameters fall'
    bad '0 0 0 0 0 0 0 0 0 0 0 0 0 0 0 0 0 0 0 0 0 0 0 0 0 0 1 0' 'refused 6: the expansion bit SP is set'
    bad '' 'malformed: 0 numbers, not 28 or 30'
    bad '0 0 0' 'malformed: 3 numbers, not 28 or 30'
    bad "$sound 0" 'malformed: 29 numbers, not 28 or 30'
    bad "$sound 0 0 0" 'malformed: 31 numbers, not 28 or 30'
    bad "$sound 0 0 c 0" 'malformed: 31 numbers, not 28 or 30'
    bad "x $sound" 'malformed: byte 0x78 is no digit and no space'
    bad "$sound c" 'malformed: byte 0x63 is no digit and no space'
    bad "$sound 0 0 x" 'malformed: byte 0x78 is no digit and no space'
    bad "$sound 0 0c" 'malformed: byte 0x63 is no digit and no space'
    bad "$sound 0 0 p d" 'malformed: byte 0x64 is no digit and no space'
    bad "-1 $sound" 'malformed: byte 0x2d is no digit and no space'
    bad "0x1 $sound" 'malformed: byte 0x78 is no digit and no space'
    printf '%s\n\0%s\n' "$sound" "$sound" > "$tmp/in"
    stray='is no digit and no space'
    says "a zero byte" 1 "oatlantern: $tmp/in: line 2: malformed: byte 0x00 $stray" oatlantern encode "$tmp/in"
    printf '%s\n\377\n' "$sound" > "$tmp/in"
    says "byte 255" 1 "oatlantern: $tmp/in: line 2: malformed: byte 0xff $stray" oatlantern encode "$tmp/in"

    # Lines of a million bytes: spaces, digits, numbers.
    head -c 1000000 /dev/zero | tr '\0' ' ' > "$tmp/in"
    echo "$sound" >> "$tmp/in"
    ends "a million spaces" 0 oatlantern encode "$tmp/in"
    same "a million spaces" "$tmp/first" "$tmp/got"
    { head -c 1000000 /dev/zero | tr '\0' 9; echo " ${sound#0 }"; } > "$tmp/in"
    says "a million digits" 1 "oatlantern: $tmp/in: line 1: $large (field 1)" oatlantern encode "$tmp/in"
    { head -c 1000000 /dev/zero | tr '\0\n' '0 ' | sed 's/0/0 /g'; echo; } > "$tmp/in"
    count='malformed: 1000000 numbers, not 28 or 30'
    says "a million numbers" 1 "oatlantern: $tmp/in: line 1: $count" oatlantern encode "$tmp/in"
}

# ---- Recordings ----

# wanted_of SUBCOMMAND FILE..: lays into $tmp/text what is printed of these files together, and into $tmp/lines.said what is said
wanted_of() {
    kind=$1 sound_count=0 refused_count=0
    shift
    : > "$tmp/text"
    : > "$tmp/lines.said"
    for f; do
        name=${f%.rec}
        echo "$f:" >> "$tmp/text"
        if grep -q '^refused' "$name.list"; then
            cat "$name.list" >> "$tmp/text"
            echo "oatlantern: $f: $(cat "$name.list"): $(words_of "$(cause_of "${name##*/}")")" >> "$tmp/lines.said"
            refused_count=$((refused_count + 1))
        else
            cat "$name.$kind" >> "$tmp/text"
            sound_count=$((sound_count + 1))
        fi
    done
    echo "$# recordings: $sound_count sound, $refused_count refused" >> "$tmp/text"
}

# together SUBCOMMAND FILE..: all in one process
together() {
    wanted_of "$@"
    ends "$1, together" 1 oatlantern "$@"
    same "$1, together: what it prints" "$tmp/text" "$tmp/got"
    same "$1, together: what it says" "$tmp/lines.said" "$tmp/said"
}

# the samples of whose excitation there is a file, and those that are refused
excited=
for f in ../samples/*.rec; do
    if [ -e "${f%.rec}.excite" ] || grep -q '^refused' "${f%.rec}.list"; then excited="$excited $f"; fi
done

try_recordings() {
    together list ../samples/*.rec
    together hear ../samples/*.rec
    # the names are split on purpose
    together excite $excited

    # One alone, by its name, as - and from standard input: just its text.
    for p in list hear excite; do
        for f in sound listening cut; do
            status=0
            [ $f != cut ] || status=1
            ends "$p, one file" $status oatlantern $p ../samples/$f.rec
            same "$p ../samples/$f.rec" ../samples/$f.$p "$tmp/got"
            [ $f != sound ] || same "$p ../samples/$f.rec: it says something" /dev/null "$tmp/said"
        done
        ends "$p -" 0 oatlantern_from ../samples/sound.rec $p -
        same "$p -" ../samples/sound.$p "$tmp/got"
        says "$p of standard input" 1 "oatlantern: standard input: refused 9 at 56: $(words_of HeaderCut)" \
            oatlantern_from ../samples/cut.rec $p
        same "$p of standard input" ../samples/cut.$p "$tmp/got"
    done

    # Too long, by a byte and by far.
    head -c 65537 /dev/zero > "$tmp/in"
    says "too long" 1 "oatlantern: $tmp/in: refused 1: $(words_of TooLong)" oatlantern list "$tmp/in"
    echo 'refused 1 at 65536' > "$tmp/wanted"
    same "too long: its line" "$tmp/wanted" "$tmp/got"
    says "far too long" 1 "oatlantern: /dev/zero: refused 1: $(words_of TooLong)" oatlantern list /dev/zero

    # Sound ones together; with one that is not there and a folder, which have no name line; and from standard input beside a
    # file.
    {
        printf '%s:\n' ../samples/sound.rec && cat ../samples/sound.list
        printf '%s:\n' ../samples/count.rec && cat ../samples/count.list
    } > "$tmp/both"
    { cat "$tmp/both"; echo '2 recordings: 2 sound, 0 refused'; } > "$tmp/wanted"
    ends "two sound ones" 0 oatlantern list ../samples/sound.rec ../samples/count.rec
    same "two sound ones" "$tmp/wanted" "$tmp/got"
    { cat "$tmp/both"; echo '4 recordings: 2 sound, 0 refused, 2 not read'; } > "$tmp/wanted"
    ends "some that cannot be read" 3 oatlantern list "$tmp/none" ../samples/sound.rec . ../samples/count.rec
    same "some that cannot be read" "$tmp/wanted" "$tmp/got"
    printf 'oatlantern: %s: No such file or directory\noatlantern: .: Is a directory\n' "$tmp/none" > "$tmp/wanted"
    same "some that cannot be read: what it says" "$tmp/wanted" "$tmp/said"
    ends "refused and not read" 3 oatlantern list ../samples/cut.rec "$tmp/none"
    [ "$(tail -n 1 "$tmp/got")" = '2 recordings: 0 sound, 1 refused, 1 not read' ] || fail "refused and not read"
    ends "standard input beside a file" 0 oatlantern_from ../samples/sound.rec list -- ../samples/count.rec -
    sed -n 's/:$//p' "$tmp/got" | tail -n 1 > "$tmp/name"
    echo 'standard input' > "$tmp/wanted"
    same "standard input beside a file" "$tmp/wanted" "$tmp/name"

    # A name that begins with -, and one that would break its line.
    cp ../samples/sound.rec "$tmp/-v"
    cp ../samples/cut.rec "$tmp/two
lines"
    (cd "$tmp" && "$run" "$OLDPWD/$bin/oatlantern" list -- -v 'two
lines' > "$tmp/got" 2> "$tmp/said") && fail "a refused one: status 0"
    grep -qx -e '-v:' "$tmp/got" && grep -qx 'two?lines:' "$tmp/got" || fail "names in lines"
    [ "$(wc -l < "$tmp/said")" -eq 1 ] || fail "a name in a line that is said"
    checks=$((checks + 2))
}

# ---- Salvaging ----

try_salvage() {
    kept="$(words_of NothingKept)"
    rm -rf "$tmp/salvaged"
    mkdir "$tmp/salvaged"
    for f in ../samples/*.rec; do
        name=${f%.rec}
        to=$tmp/salvaged/${name##*/}.rec
        if grep -q '^refused 12$' "$name.changes"; then
            says "salvage $f" 1 "oatlantern: $f: refused 12: $kept" oatlantern salvage "$f" "$to"
            [ ! -e "$to" ] || fail "salvage $f: it writes a file"
            continue
        fi
        ends "salvage $f" 0 oatlantern salvage "$f" "$to"
        same "salvage $f: the changes" "$name.changes" "$tmp/said"
        same "salvage $f: it prints something" /dev/null "$tmp/got"
        wanted=$f
        [ ! -e "$name.salvaged" ] || wanted=$name.salvaged
        same "salvage $f: the result" "$wanted" "$to"
    done
    # what was salvaged is sound
    ends "the results" 0 oatlantern list "$tmp"/salvaged/*.rec
    grep -q ' sound, 0 refused$' "$tmp/got" || fail "the results are not all sound"

    # From standard input and to standard output; a result comes out unchanged.
    dropped=../samples/dropped-later
    ends "salvage" 0 oatlantern_from $dropped.rec salvage
    same "salvage: the result" $dropped.salvaged "$tmp/got"
    same "salvage: the changes" $dropped.changes "$tmp/said"
    ends "salvage - -" 0 oatlantern_from $dropped.salvaged salvage - -
    same "salvage - -: the result once more" $dropped.salvaged "$tmp/got"
    same "salvage - -: changes of the result" /dev/null "$tmp/said"
    head -c 65537 /dev/zero > "$tmp/in"
    says "salvage: too long" 1 "oatlantern: standard input: refused 1: $(words_of TooLong)" oatlantern_from "$tmp/in" salvage
    same "salvage: too long: it writes something" /dev/null "$tmp/got"

    # OUT keeps its mode, a new one has that of any file; a link stays a link; IN and OUT may be one file.
    rm -rf "$tmp/o"
    mkdir "$tmp/o"
    (umask 027 && oatlantern salvage ../samples/sound.rec "$tmp/o/new")
    printf 'before' > "$tmp/o/old"
    chmod 604 "$tmp/o/old"
    ln -s old "$tmp/o/link"
    ends "salvage to a link" 0 oatlantern salvage ../samples/sound.rec "$tmp/o/link"
    found="$(stat -c %a "$tmp/o/new") $(stat -c %a "$tmp/o/old") $(readlink "$tmp/o/link")"
    [ "$found" = '640 604 old' ] || fail "modes and links: $found"
    same "salvage to a link" ../samples/sound.rec "$tmp/o/old"
    cp $dropped.rec "$tmp/o/both"
    ends "salvage in place" 0 oatlantern salvage "$tmp/o/both" "$tmp/o/both"
    same "salvage in place" $dropped.salvaged "$tmp/o/both"
    mkfifo "$tmp/o/pipe"
    timeout 20 cat "$tmp/o/pipe" > "$tmp/piped" &
    ends "salvage to a pipe" 0 oatlantern salvage $dropped.rec "$tmp/o/pipe"
    wait $! || fail "salvage to a pipe: nothing comes"
    same "salvage to a pipe" $dropped.salvaged "$tmp/piped"

    # OUT is as it was after a refusal and after each failure, and no other file is left.
    printf 'before' > "$tmp/before"
    cp "$tmp/before" "$tmp/o/old"
    ln -s absent "$tmp/o/nowhere"
    find "$tmp/o" | sort > "$tmp/files"
    says "refused, OUT there" 1 "oatlantern: ../samples/wrong-size.rec: refused 12: $kept" \
        oatlantern salvage ../samples/wrong-size.rec "$tmp/o/old"
    # a file that may not grow; what is said goes through a pipe, which may
    { (ulimit -f 0 && oatlantern salvage $dropped.rec "$tmp/o/old" 2>&1 || echo $?) } | cat > "$tmp/got"
    printf 'oatlantern: %s: File too large\n3\n' "$tmp/o/old" > "$tmp/wanted"
    same "no room, OUT there" "$tmp/wanted" "$tmp/got"
    says "IN is not there" 3 "oatlantern: $tmp/none: No such file or directory" oatlantern salvage "$tmp/none" "$tmp/o/old"
    says "OUT is a folder" 3 "oatlantern: $tmp/o: Is a directory" oatlantern salvage $dropped.rec "$tmp/o"
    says "OUT's folder is not there" 3 "oatlantern: $tmp/none/o: No such file or directory" \
        oatlantern salvage $dropped.rec "$tmp/none/o"
    says "OUT is a link to nothing" 3 "oatlantern: $tmp/o/nowhere: No such file or directory" \
        oatlantern salvage $dropped.rec "$tmp/o/nowhere"
    says "OUT takes nothing" 3 'oatlantern: /dev/full: No space left on device' oatlantern salvage $dropped.rec /dev/full
    same "OUT is not as it was" "$tmp/before" "$tmp/o/old"
    find "$tmp/o" | sort > "$tmp/got"
    same "files are left over" "$tmp/files" "$tmp/got"
}

# ---- Around the work ----

# what each subcommand gets that it has something to write of
input_of() {
    case $1 in
    decode) echo "$tmp/worked" ;;
    encode) echo "$tmp/lines" ;;
    *) echo ../samples/dropped-later.salvaged ;;
    esac
}

try_around() {
    # Outputs that take nothing, inputs that give nothing.
    for p in list hear excite salvage decode encode; do
        in=$(input_of $p)
        says "$p > /dev/full" 3 'oatlantern: standard output: No space left on device' oatlantern_to /dev/full $p "$in"
        says "$p >&-" 3 'oatlantern: standard output: Bad file descriptor' to_closed $p "$in"
        says "$p < ." 3 'oatlantern: standard input: Is a directory' oatlantern_from . $p
        says "$p <&-" 3 'oatlantern: standard input: Bad file descriptor' from_closed $p
        says "$p ." 3 'oatlantern: .: Is a directory' oatlantern $p .
        says "$p: a file that is not there" 3 "oatlantern: $tmp/none: No such file or directory" oatlantern $p "$tmp/none"
        ends "$p: a bad option" 2 oatlantern $p --what
        grep -q "^oatlantern: usage: oatlantern $p " "$tmp/said" && [ ! -s "$tmp/got" ] || fail "$p --what: no usage"
        ends "$p: a bad option after a file" 2 oatlantern $p "$in" -x
        ends "$p --version" 0 oatlantern $p --version
        [ "$(cat "$tmp/got")" = "oatlantern $version" ] || fail "$p --version"
    done
    # several files: it stops where the output fails
    says "list of several > /dev/full" 3 'oatlantern: standard output: No space left on device' \
        oatlantern_to /dev/full list ../samples/sound.rec ../samples/cut.rec ../samples/sound.rec
    for words in 'salvage a b c' 'decode -v -v' 'decode -v -x' 'decode a b' 'encode a b' 'encode -v' \
        tally 'tally a' 'tally a b'; do
        # the words are split on purpose
        ends "$words" 2 oatlantern $words
        grep -q '^oatlantern: usage: oatlantern' "$tmp/said" && [ ! -s "$tmp/got" ] || fail "$words: no usage"
    done

    # A pipe whose reader has gone.
    {
        sleep 0.3
        for p in list hear excite salvage decode encode --help; do
            in=
            [ $p = --help ] || in=$(input_of $p)
            status=0
            # no word where there is no file
            oatlantern $p ${in:+"$in"} 2>> "$tmp/piped.said" || status=$?
            echo "$p $status" >> "$tmp/piped.status"
        done
    } | :
    printf '%s 3\n' list hear excite salvage decode encode --help > "$tmp/wanted"
    same "a closed pipe" "$tmp/wanted" "$tmp/piped.status"
    yes 'oatlantern: standard output: Broken pipe' | head -n 7 > "$tmp/wanted"
    same "a closed pipe: what is said" "$tmp/wanted" "$tmp/piped.said"
    rm "$tmp/piped.status" "$tmp/piped.said"

    # Help, the version, and no subcommand.
    for p in list hear salvage excite decode encode tally; do
        ends "$p --help" 0 oatlantern $p --help
        head -n 1 "$tmp/got" | grep -q "^Usage: oatlantern $p " && [ "$(wc -l < "$tmp/got")" -ge 2 ] || fail "$p --help"
    done
    ends "--help" 0 oatlantern --help
    for p in list hear salvage excite decode encode tally; do
        grep -q "^  oatlantern $p " "$tmp/got" || fail "--help does not tell $p"
    done
    ends "--version" 0 oatlantern --version
    [ "$(cat "$tmp/got")" = "oatlantern $version" ] || fail "--version"
    ends "--help > /dev/full" 3 oatlantern_to /dev/full --help
    says "no subcommand" 2 'oatlantern: usage: oatlantern SUBCOMMAND .. (--help tells more)' oatlantern
    says "another subcommand" 2 'oatlantern: lists is no subcommand (--help tells them)' oatlantern lists

    # The subcommand by the command's name.
    for p in list hear salvage excite decode encode; do
        ln -sf "$(pwd)/$bin/oatlantern" "$tmp/oatlantern-$p"
        in=$(input_of $p)
        ends "$p" 0 oatlantern $p "$in"
        mv "$tmp/got" "$tmp/wanted"
        ends "oatlantern-$p" 0 "$run" "$tmp/oatlantern-$p" "$in"
        same "oatlantern-$p" "$tmp/wanted" "$tmp/got"
    done
}

# A terminal as standard error shows how far the work is, once it takes long, and nothing of it is left when it ends.
try_progress() {
    rm -f "$tmp/slow"
    mkfifo "$tmp/slow"
    set -- list "$tmp/slow" ../samples/cut.rec ../samples/sound.rec
    timeout 30 python3 - "$run" "$bin/oatlantern" "$@" << 'END' || fail "the line of progress"
import os, pty, subprocess, sys, time
ours, theirs = pty.openpty()
run = subprocess.Popen(sys.argv[1:], stdout=subprocess.DEVNULL, stderr=theirs)
os.close(theirs)
with open(sys.argv[4], "wb") as slow, open(sys.argv[6], "rb") as sound:
    time.sleep(1.2)
    slow.write(sound.read())
status = run.wait()
said = b""
try:
    while part := os.read(ours, 4096):
        said += part
except OSError:
    pass
shown = b"\r1 of 3 recordings"
erased = b"\r" + b" " * (len(shown) - 1) + b"\r"
line = b"oatlantern: " + sys.argv[5].encode() + b": refused 9 at 56: "
right = said.startswith(shown + erased + line) and said.endswith(b"six\r\n") and said.count(b"\n") == 1
sys.exit(0 if right and status == 1 else f"{status} {said}")
END
    checks=$((checks + 1))
}

for bin in $out $out/sanitized; do
    try_frames
    try_recordings
    try_salvage
    try_around
done
bin=$out
try_progress

[ $checks -gt 0 ] || fail "nothing was checked"
echo "host/test.sh: $checks checks, 0 failed"
