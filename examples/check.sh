#!/usr/bin/env bash
# Checks the Go files of a folder with gvet, and its go.mod: makes the script that puts each of them and asks for a check, or for another
# command, and runs it.
#   examples/check.sh DIR [check | report | facts | fix]
# A fix is told and not written into the folder. Its output and its status are gvet's. Names that gvet takes for no paths are told and left out.
set -eu
gvet=$(cd "$(dirname "$0")/.." && pwd)/gvet
dir=${1:?"usage: examples/check.sh DIR [check | report | facts | fix]"}
command=${2:-check}
[ -d "$dir" ] || { echo "check.sh: $dir is no folder" >&2; exit 2; }
script=$(mktemp)
trap 'rm -f "$script"' EXIT
while IFS= read -r -d '' file; do
    path=${file#./}
    if [[ $path =~ [^A-Za-z0-9_.+~@/-] ]]; then
        printf 'check.sh: left out, since its name is no path: %q\n' "$path" >&2
        continue
    fi
    printf 'put %s %d\n' "$path" "$(wc -c <"$dir/$path")"
    cat "$dir/$path"
    echo
done < <(cd "$dir" && find . \( -name '*.go' -o -path ./go.mod \) -type f -print0 | sort -z) >"$script"
echo "$command" >>"$script"
status=0
"$gvet" session <"$script" || status=$?
exit "$status"
