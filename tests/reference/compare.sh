#!/usr/bin/env bash
# Runs the program `session` on each session file of a folder and compares what it prints with the listing beside it.
set -u
root="$(cd "$(dirname "$0")/../.." && pwd)"
folder="${1:?usage: compare.sh DIR}"
program="$root/crates/session/out/session"
if [ ! -x "$program" ]; then
    echo "there is no $program: build it with './session samples/first.session'" >&2
    exit 1
fi
same=0
other=0
for file in "$folder"/*.session; do
    [ -e "$file" ] || continue
    if "$program" < "$file" | cmp -s - "${file%.session}.listing" && [ "${PIPESTATUS[0]}" -eq 0 ]; then
        same=$((same + 1))
    else
        echo "differs: $file"
        other=$((other + 1))
    fi
done
echo "$same alike, $other differ"
[ "$other" -eq 0 ] && [ "$same" -gt 0 ]
