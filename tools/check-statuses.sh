#!/usr/bin/env bash
# Runs the program itself to each status that real devices give at will: its exit code, and its name on standard error.
# A tree that fails (4), which root reads all the same, want of memory (7), a sink that takes nothing (10) and rules in a circle (12) aren't among them.
#     tools/check-statuses.sh [PROGRAM]     PROGRAM is gvet as it was built; with none it is ./gvet, which builds it where it has to
set -u
cd "$(dirname "$0")/.." || exit 1
program=${1:-crates/gvet/out/gvet}
if [ ! -x "$program" ]; then
    ./gvet session </dev/null >/dev/null || { echo "gvet isn't built" >&2; exit 1; }
    program=crates/gvet/out/gvet
fi
failed=0

# expect STATUS NAME: what the last call ended with, and what it printed
expect() {
    local printed
    printed=$(cat "$errors")
    if [ "$status" != "$1" ] || [ "$printed" != "$2" ]; then
        echo "want $1 '$2', got $status '$printed'" >&2
        failed=1
    fi
}

program=$(cd "$(dirname "$program")" && pwd)/$(basename "$program")
errors=$(mktemp)
room=$(mktemp -d)
trap 'rm -rf "$errors" "$room"' EXIT
mkdir "$room/kept" "$room/kept/.gvet-cache"
cd "$room" || exit 1
printf 'check\n' | "$program" session >/dev/null 2>"$errors"; status=$?; expect 0 ''
printf 'put a/a.go 23\npackage a\n\nconst A = A\n\ncheck\n' | "$program" session >/dev/null 2>"$errors"; status=$?; expect 1 ''
"$program" chat </dev/null >/dev/null 2>"$errors"; status=$?; expect 2 'usage'
"$program" session </ >/dev/null 2>"$errors"; status=$?; expect 3 'source fault'
(cd kept && "$program" check >/dev/null 2>"$errors"); status=$?; expect 5 'keeper fault'
printf 'check\n' | "$program" session >/dev/full 2>"$errors"; status=$?; expect 6 'sink fault'
printf 'Check\n' | "$program" session >/dev/null 2>"$errors"; status=$?; expect 8 'script refused'
yes 'del a' | head -c 268435457 | "$program" session >/dev/null 2>"$errors"; status=$?; expect 9 'input too long'
[ "$failed" = 0 ] && echo "each status has its number and its name"
exit "$failed"
