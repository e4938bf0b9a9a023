#!/usr/bin/env bash
# Tries the edits that have to be refused, those of must-fail/ and of edits/ alike, on a copy of the checkout as it stands.
#   tools/try-edits.sh NAME..          of these crates
#   tools/try-edits.sh --since COMMIT  of the crates whose sources, definitions or edits differ from COMMIT
# Prints a line an edit and ends with 1 where one isn't refused. It begins with what earlier checks on this machine kept.
set -eu
cd "$(dirname "$0")/.."
root=$PWD
if [ "${1-}" = --since ]; then
    base=${2:?"--since wants a commit"}
    names=$( { git diff --name-only "$base" -- crates; git ls-files --others --exclude-standard -- crates; } |
        sed -nE 's,^crates/([^/]+)/(src|specs|must-fail|edits)/.*,\1,p' | sort -u)
else
    names="$*"
fi
chosen=()
for name in $names; do
    [ -d "crates/$name" ] || { echo "there is no crate $name" >&2; exit 2; }
    if compgen -G "crates/$name/must-fail/*.edit" >/dev/null || compgen -G "crates/$name/edits/*.edit" >/dev/null; then
        chosen+=("$name")
    else
        echo "$name has no edits"
    fi
done
[ ${#chosen[@]} -gt 0 ] || { echo "no crate with edits was named: tools/try-edits.sh NAME.. or --since COMMIT" >&2; exit 2; }
copy=$(mktemp -d)
trap 'rm -rf "$copy"' EXIT
cp crates.txt HANDLES "$copy"
tar -C "$root" --exclude='crates/*/out' -cf - crates | tar -C "$copy" -xf -
for name in "${chosen[@]}"; do
    [ -d "$copy/crates/$name/edits" ] || continue
    mkdir -p "$copy/crates/$name/must-fail"
    mv "$copy/crates/$name/edits/"* "$copy/crates/$name/must-fail/"
done
cd "$copy"
rt must-fail "${chosen[@]}"
