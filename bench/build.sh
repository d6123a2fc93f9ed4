#!/bin/sh
# Proves and builds a benchmark's program, and prints its path. The build ends by a short run of it on its own words.
#
# usage: bench/build.sh NAME [WORD ..]
set -eu
here=$(cd "$(dirname "$0")/.." && pwd)
name=$1
shift
log=$(mktemp)
trap 'rm -f "$log"' EXIT
(cd "$here/crates/$name" && rt run -- "$@") >"$log" 2>&1 || { cat "$log" >&2; exit 1; }
echo "$here/crates/$name/out/$name"
