#!/usr/bin/env bash
# How long crates/flow_cases takes over large files that it makes: chains and rings of functions, one flat body, nested bodies, clauses,
# labels, and a function that calls all functions of a chain. Each is made at four sizes, most twice as large as the one before, so that a time that
# doesn't double shows. Prints the seconds that the program ran, reading, scanning, parsing and finding labels included.
#   tools/time-flow.sh          all of them
#   tools/time-flow.sh NAME..   these
# Wants crates/flow_cases/out/flow_cases, which `rt run` in that folder builds.
set -eu
cd "$(dirname "$0")/.."
program=$PWD/crates/flow_cases/out/flow_cases
[ -x "$program" ] || { echo "build it first: (cd crates/flow_cases && rt run)" >&2; exit 2; }
folder=$(mktemp -d)
trap 'rm -rf "$folder"' EXIT
MARK='// ERROR never returns'

# a chain of functions, each of which calls the next; the last never returns, and so does none
chain() {
    awk -v n="$1" -v mark="$MARK" 'BEGIN {
        print "package a"
        for (i = 1; i < n; i++) printf "func f%d() { f%d() } %s\n", i, i + 1, mark
        printf "func f%d() { for { } } %s\n", n, mark
    }'
}

# a ring of functions, all of which return: each waits for the next, and nothing else keeps one from returning
ring() {
    awk -v n="$1" 'BEGIN {
        print "package a"
        for (i = 1; i <= n; i++) printf "func f%d() { f%d() }\n", i, i % n + 1
    }'
}

# the same, but the last of them stops: none returns
ring_that_stops() {
    awk -v n="$1" -v mark="$MARK" 'BEGIN {
        print "package a"
        for (i = 1; i < n; i++) printf "func f%d() { f%d() } %s\n", i, i + 1, mark
        printf "func f%d() { if c { f1() }; for { } } %s\n", n, mark
    }'
}

# one body of as many bytes, flat
flat() {
    awk -v n="$1" 'BEGIN {
        print "package a\nfunc f() {"
        for (i = 0; i < n; i += 36) print "\tif c {\n\t\tx()\n\t} else {\n\t\ty++\n\t}\n\tz()"
        print "}"
    }'
}

# one body of as many bytes, of blocks 200 deep
deep() {
    awk -v n="$1" 'BEGIN {
        print "package a\nfunc f() {"
        for (k = 0; k < 200; k++) { open = open "{"; close_ = close_ "}" }
        for (i = 0; i < n; i += 406) print open "x()" close_ ";;"
        print "}"
    }'
}

# one body of as many bytes, of loops 80 deep, each left by its label
loops() {
    awk -v n="$1" 'BEGIN {
        print "package a\nfunc f() {"
        for (k = 0; k < 80; k++) { open = open "for c { "; close_ = close_ "; continue }" }
        for (i = 0; i < n; i += 1625) print "L" i ": " open "if c { break L" i " }; x()" close_
        print "}"
    }'
}

# one `switch` of as many clauses
clauses() {
    awk -v n="$1" 'BEGIN {
        print "package a\nfunc f() {\n\tswitch {"
        for (i = 0; i < n; i++) print "\tcase c:\n\t\tx()\n\t\tfallthrough"
        print "\tdefault:\n\t}\n}"
    }'
}

# as many labels, each of which a `goto` names
labels() {
    awk -v n="$1" 'BEGIN {
        print "package a\nfunc f() {"
        for (i = n; i > 0; i--) printf "\tif c { goto L%d }\nL%d:\n\tx()\n", i % n + 1, i
        print "}"
    }'
}

# a chain of functions, and one that calls them all
caller() {
    awk -v n="$1" -v mark="$MARK" 'BEGIN {
        print "package a\nfunc f0() {"
        for (i = 1; i <= n; i++) printf "\tif c { f%d() }\n", i
        print "}"
        for (i = 1; i < n; i++) printf "func f%d() { f%d() } %s\n", i, i + 1, mark
        printf "func f%d() { for { } } %s\n", n, mark
    }'
}

sizes_of() {
    case $1 in
    chain | ring | ring_that_stops) echo 10000 50000 100000 200000 ;;
    flat | deep | loops) echo 1000000 2000000 4000000 8000000 ;;
    clauses | labels) echo 25000 50000 100000 200000 ;;
    caller) echo 1000 2000 4000 8000 ;;
    *) echo "no such case: $1" >&2; exit 2 ;;
    esac
}

[ $# -gt 0 ] || set -- chain ring ring_that_stops flat deep loops clauses labels caller
for name in "$@"; do
    for size in $(sizes_of "$name"); do
        "$name" "$size" > "$folder/a.go"
        start=$(date +%s%N)
        said=$(cd "$folder" && "$program")
        end=$(date +%s%N)
        printf '%s %s: %d.%02d s (%s)\n' "$name" "$size" $(((end - start) / 1000000000)) $(((end - start) / 10000000 % 100)) "$said"
    done
done
