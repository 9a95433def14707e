#!/usr/bin/env bash
# The programs on folders with missing, torn, long and unreadable files: what they print, and that they end with status 0.
set -euo pipefail
top=$(cd "$(dirname "$0")/.." && pwd)
data=$top/crates/match_referee/data
folder=$(mktemp -d)
trap 'rm -rf "$folder"' EXIT
for program in referee match_referee; do
    (cd "$top/crates/$program" && rt run) >"$folder/build.log" 2>&1 || {
        tail -n 20 "$folder/build.log"
        exit 1
    }
done
rm "$folder/build.log"
cd "$folder"

# Each number as a byte.
bytes() {
    for number in "$@"; do printf "\\$(printf '%03o' "$number")"; done
}

# What a program prints in this folder, its lines joined by commas, is as expected.
prints() { # PROGRAM NAME EXPECTED
    said=$("$top/crates/$1/out/$1" | paste -sd, -)
    if [ "$said" != "$3" ]; then
        echo "$1 $2: it prints '$said' and not '$3'"
        exit 1
    fi
    echo "$1 $2: $said"
}

# The same of both programs.
both_print() { # NAME EXPECTED
    prints referee "$1" "$2"
    prints match_referee "$1" "$2"
}

both_print "in an empty folder" "refused 1 0 0"
head -c 68 "$data/certificate.dat" >certificate.dat
both_print "with a torn certificate" "refused 7 0 0"
cp "$data/certificate.dat" .
prints referee "with a certificate" "accepted 5 6"
prints match_referee "without a programme" "accepted 5 6,refused 40 0 0"
bytes 1 3 0 >programme.dat
prints match_referee "without the book that a match goes by" "accepted 5 6,match 1,refused 17 0 0"
bytes 2 0 1 0 0 1 1 >book.dat
prints match_referee "with a book" "accepted 5 6,match 1,1 1,1 0,3 0,over 0 4,loads 4 1"
bytes 1 2 255 >programme.dat
bytes 9 9 9 >book.dat
prints match_referee "with a book that no match goes by" "accepted 5 6,match 1,1 0,1 0,2 0,over 0 4,loads 4 0"
# 3 bins, 18 classes and 862 rows are 65,536 bytes; rows of zeros do not ascend, and the byte behind is not looked at
{ bytes 3 18 19 18 3 94 $(seq 18); head -c 65513 /dev/zero; } >certificate.dat
both_print "with a certificate of 65,537 bytes" "refused 11 1 0"
rm certificate.dat
mkdir certificate.dat
both_print "with a folder for a certificate" "refused 1 0 0"
