#!/bin/sh
# Runs the programs of vectors on every file of a folder made by `second generated`
# and compares what they print with what they have to.
# usage: generated.sh PROGRAMS DIR
set -u
programs=$1
folder=$2
printed=$(mktemp)
trap 'rm -f "$printed"' EXIT
count=0
for calls in "$folder"/*.in; do
    part=${calls##*/}
    part=${part%%-*}
    "$programs/vectors_$part" < "$calls" > "$printed" || { echo "$calls: program failed"; exit 1; }
    cmp -s "$printed" "${calls%.in}.out" || {
        echo "$calls: answers differ"
        diff "$printed" "${calls%.in}.out" | cut -c1-300 | head -n 6
        exit 1
    }
    count=$((count + $(wc -l < "$calls")))
done
[ "$count" -gt 0 ] || { echo "no files in $folder"; exit 1; }
echo "$count generated lines, no difference"
