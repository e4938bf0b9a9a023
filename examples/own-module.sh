#!/usr/bin/env bash
# own-module.sh DIR [--json] [--only LIST] [--workers N]: reports on the module of Go in a folder. Go has to be installed; gvet is $GVET, else the one that is built here.
# All that is written stands in DIR/.gvet, which git ignores: `tree` has the module's files with stubs of what they import, and the cache;
# `tree/left-out` says what of these stubs differs from the packages, `tree/uses` where the module uses that. The status is gvet's, or 70
# where there is no report: Go is missing, or doesn't build the module.
set -eu
root=$(cd "$(dirname "$0")/.." && pwd)
dir=${1:?"usage: examples/own-module.sh DIR [--json] [--only LIST] [--workers N]"}
shift
stop() {
    echo "own-module.sh: $1" >&2
    exit 70
}
[ -d "$dir" ] || stop "$dir is no folder"
gvet=${GVET:-$root/crates/gvet/out/gvet}
gvet=$(command -v "$gvet") || stop "${GVET:-gvet} isn't built: run ./gvet once, or name the program in GVET"
gvet=$(cd "$(dirname "$gvet")" && pwd)/$(basename "$gvet")
command -v go >/dev/null || stop "the command go isn't on the path: install Go, or add its bin folder to PATH"

work=$dir/.gvet
mkdir -p "$work"
echo '*' >"$work/.gitignore"
stubs=$(cd "$work" && pwd)/stubs
(cd "$root/tools/stubs" && env -u GOOS -u GOARCH GOFLAGS='' GOWORK=off GO111MODULE=on go build -buildvcs=false -o "$stubs" .) || stop "tools/stubs isn't built"
exec "$stubs" report "$gvet" "$dir" "$@"
