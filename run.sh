#!/usr/bin/env bash
# Proves and builds the referee, and runs it on the files of a folder (the two-bin example by default). A second word names
# another program: ./run.sh FOLDER match_referee
set -eu
top=$(cd "$(dirname "$0")" && pwd)
folder=${1:-$top/crates/referee/data}
program=${2:-referee}
(cd "$top/crates/$program" && rt run) >"${TMPDIR:-/tmp}/referee-build.log" 2>&1 || {
    tail -n 20 "${TMPDIR:-/tmp}/referee-build.log" >&2
    exit 1
}
cd "$folder"
exec "$top/crates/$program/out/$program"
