#!/bin/sh
# run.sh [SECONDS]: builds the fuzzer and runs it, ten minutes by default. What it finds is left in ../../target/fuzz.
set -eu
cd "$(dirname "$0")"
. ../../host/tools.sh
need_archive
out=${FUZZ_OUT:-../../target/fuzz}
mkdir -p "$out/corpus"
${CLANG:-clang} -std=c99 -Wall -Wextra -g -O1 -fsanitize=fuzzer,address,undefined -fno-sanitize-recover=all \
    -I../../include -I../boundary -o "$out/fuzz" fuzz.c ../boundary/plain.c "$archive"

# Where to start from: each function with a zero input, with one of the wrong length, and with nothing.
printf '\2\0\0\0\0\0\0\0\0\0\0\0\0\0\0\0\0\0\0\0' > "$out/corpus/frame"
{ printf '\3\0'; head -c 56 /dev/zero; } > "$out/corpus/record"
printf '\0\70\0' > "$out/corpus/short-frame"
printf '\1\22\0' > "$out/corpus/short-record"
printf '\0\0' > "$out/corpus/nothing"

"$out/fuzz" -max_len=130 -max_total_time="${1:-600}" -artifact_prefix="$out/" -print_final_stats=1 -verbosity=1 "$out/corpus"
