#!/usr/bin/env bash
# try.sh [PROGRAM]: reports by gvet on the module in testdata/shop, which has a vendor folder, build tags, a package that lies outside the profile
# and faults through other packages, and asks `go vet` of it, too. Prints each line of a file that only one of both speaks of, and how many there are.
set -eu
root=$(cd "$(dirname "$0")/../.." && pwd)
program=${1:-$root/crates/gvet/out/gvet}
[ -x "$program" ] || { echo "try.sh: $program isn't built" >&2; exit 2; }
room=$(mktemp -d)
trap 'rm -rf "$room"' EXIT
cp -r "$root/tools/stubs/testdata/shop" "$room/"
cd "$room/shop"
lines() { sed -nE 's#^(\./)?([^ :]+\.go:[0-9]+):.*#\2#p' "$1" | sort -u; }
GVET=$program "$root/examples/own-module.sh" . >"$room/reply" || [ $? = 1 ]
grep -v 'outside profile' "$room/reply" >"$room/found" || true
go vet -assign -bools -copylocks -nilfunc -printf -stringintconv -structtag -unreachable -unusedresult ./... 2>"$room/vet" || true
lines "$room/found" >"$room/ours"
lines "$room/vet" >"$room/theirs"
tail -1 "$room/reply"
echo "$(wc -l <"$room/ours") lines by gvet, $(wc -l <"$room/theirs") by go vet"
diff "$room/ours" "$room/theirs"
