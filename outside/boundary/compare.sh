#!/bin/sh
# The archive (OATLANTERN_ARCHIVE, or the one that ../../host makes) against the independent program: builds answers.c on it and runs `compare`,
# which asks it over a pipe. compare.sh [N [SEED]]
set -eu
cd "$(dirname "$0")"
. ../../host/tools.sh
need_archive
tmp=$(mktemp -d)
trap 'rm -rf "$tmp"' EXIT
trap 'exit 1' HUP INT TERM
$CC -std=c11 -Wall -Wextra -pedantic -Werror -O2 -I../../include -o "$tmp/answers" answers.c "$archive"
cargo run --offline --release --quiet --bin compare -- "${1:-500000}" "${2:-1}" "$run" "$tmp/answers"
