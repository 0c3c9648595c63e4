#!/bin/sh
# Shows that each given source is an exact prefix of the file we compile: its first
# N bytes have the sha256 in GIVEN.txt, and what follows is nothing or begins with
# the line that opens our doors. Ends with 1 if any file fails.
cd "$(dirname "$0")" || exit 1
door='// ==== doors (ours) ===='
bad=0
seen=0
while read -r sum bytes file; do
    case "$sum" in '' | '#'*) continue ;; esac
    seen=$((seen + 1))
    size=$(wc -c <"$file") || { bad=1; continue; }
    got=$(head -c "$bytes" "$file" | sha256sum | cut -d' ' -f1)
    next=$(tail -c "+$((bytes + 1))" "$file" | head -n 1)
    doors=$(grep -cxF "$door" "$file")
    if [ "$size" -lt "$bytes" ] || [ "$got" != "$sum" ]; then
        echo "not the given bytes: $file"; bad=1
    elif [ "$size" -eq "$bytes" ]; then
        echo "given, whole: $file"
    elif [ "$next" = "$door" ] && [ "$doors" -eq 1 ]; then
        echo "given, then doors: $file"
    else
        echo "something other than doors follows: $file"; bad=1
    fi
done <GIVEN.txt
[ "$seen" -eq 14 ] || { echo "expected 14 given files, saw $seen"; bad=1; }
exit $bad
