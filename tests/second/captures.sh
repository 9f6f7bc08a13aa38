#!/bin/sh
# Runs a listing program on every capture of a folder made by `second captures`
# and compares what it prints with the expected listing. Then counts what the
# captures held: each link must have messages, open frames and every number that
# its stream can be refused with, and no other number, and some first byte must name no link.
# usage: captures.sh PROGRAM DIR
set -u
program=$1
folder=$2
printed=$(mktemp)
trap 'rm -f "$printed"' EXIT
count=0
for capture in "$folder"/capture-*.bin; do
    "$program" < "$capture" > "$printed" || { echo "$capture: program failed"; exit 1; }
    cmp "$printed" "${capture%.bin}.txt" || { echo "$capture: listing differs"; exit 1; }
    count=$((count + 1))
done
[ "$count" -gt 0 ] || { echo "no captures in $folder"; exit 1; }

# How often each line was seen on each link ("-": the first byte names none).
tally='
    FNR == 1 { link = $1 == "link" ? $2 : "-" }
    $1 == "refused" { seen[link, $2]++ }
    $1 == "message" { seen[link, "message"]++ }
    $1 == "open" && $2 > 0 { seen[link, "open"]++ }
    function demand(link, words,    n, i, word) {
        n = split(words, word, " ")
        printf "%s", link
        for (i = 1; i <= n; i++) {
            printf "  %s: %d", word[i], seen[link, word[i]]
            can[link, word[i]] = 1
            if (!seen[link, word[i]]) missing = missing "never seen on " link ": " word[i] "\n"
        }
        print ""
    }
    END {
        demand("P", "message open 4 5 6 8 9 10 13")
        demand("M", "message open 8 9 10")
        demand("D", "message open 4 5 6 7 10")
        demand("X", "message open 4 5 6 7 8 9")
        demand("-", "9")
        for (key in seen) if (!(key in can)) { split(key, part, SUBSEP); missing = missing "can not be on " part[1] ": " part[2] "\n" }
        printf "%s", missing
        exit missing != ""
    }'
awk "$tally" "$folder"/capture-*.txt || exit 1
echo "$count captures, no difference"
