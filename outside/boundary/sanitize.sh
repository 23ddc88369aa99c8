#!/bin/sh
# Builds sanitize.c with the sanitizers (host/tools.sh says which), links the archive (OATLANTERN_ARCHIVE, or the one that ../../host makes)
# and runs it.
set -eu
cd "$(dirname "$0")"
. ../../host/tools.sh
need_archive
tmp=$(mktemp -d)
trap 'rm -rf "$tmp"' EXIT
trap 'exit 1' HUP INT TERM
# the words of $sanitizers are split on purpose
$CC -std=c99 -Wall -Wextra -pedantic -Werror -g -O1 $sanitizers \
    -I../../include -o "$tmp/sanitize" sanitize.c "$archive"
"$run" "$tmp/sanitize" "$@"
