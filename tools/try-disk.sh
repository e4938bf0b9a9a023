#!/usr/bin/env bash
# Tries the system's disk on real folders, with the built program of crates/disk_trial, and prints figures.
#   tools/try-disk.sh [PROGRAM]
# Makes a folder of its own and removes it. Run as root it also tries what another user can't read, and a disk that is full.
# Ends with 1 where an answer isn't the one that is written beside it.
set -u
root=$(cd "$(dirname "$0")/.." && pwd)
program=${1:-$root/crates/disk_trial/out/disk_trial}
[ -x "$program" ] || { echo "try-disk.sh: $program isn't built: rt run in crates/disk_trial" >&2; exit 2; }
work=$(mktemp -d)
small=
end() {
    [ -z "$small" ] || umount "$small" 2>/dev/null
    chmod -R u+rwx "$work" 2>/dev/null
    rm -rf "$work"
}
trap end EXIT
cp "$program" "$work/program"
chmod 755 "$work" "$work/program"
program=$work/program
bad=0

# asks NAME WANTED COMMAND..: the last line of what the command prints, with its time and the most memory that it had
asks() {
    local name=$1 wanted=$2 got begun ended memory=
    shift 2
    begun=$(date +%s%N)
    if [ -x /usr/bin/time ]; then
        got=$(/usr/bin/time -q -o "$work/memory" -f %M "$@" 2>&1 | tail -1)
        memory=$(($(tail -1 "$work/memory") / 1024))
    else
        got=$("$@" 2>&1 | tail -1)
    fi
    ended=$(date +%s%N)
    printf '%-52s %7d ms %6s MB  %s\n' "$name" $(((ended - begun) / 1000000)) "${memory:--}" "$got"
    [ "$got" = "$wanted" ] || { echo "    wanted: $wanted"; bad=1; }
}

# holds WHAT TEST..: says so where a test doesn't hold
holds() {
    local what=$1
    shift
    "$@" || { echo "    doesn't hold: $what"; bad=1; }
}

# Whether a file has this mode and length.
is_like() { [ "$(stat -c '%a %s' "$1")" = "$2" ]; }

# Whether nothing is left beside.
is_tidy() { [ ! -e .gvet-new ] && [ ! -L .gvet-new ]; }

# 1. 10,000 files in 1,000 folders, made from the last to the first, and others beside them
mkdir "$work/large"
cd "$work/large" || exit 2
for i in $(seq 999 -1 0); do
    mkdir -p "d$((i % 10))/e$((i / 10 % 10))/f$((i / 100))"
    for k in 9 8 7 6 5 4 3 2 1 0; do printf 'package p\n' >"d$((i % 10))/e$((i / 10 % 10))/f$((i / 100))/x$k.go"; done
    printf 'package p\n' >"d$((i % 10))/e$((i / 10 % 10))/f$((i / 100))/x_test.go"
done
mkdir -p d0/testdata/deep .git/objects
printf 'package p\n' | tee d0/testdata/deep/t.go .git/objects/g.go README.go.txt >/dev/null
asks "10,000 files in 1,000 folders, listed" "10000 files" "$program" count
asks "the same, listed and read" "read 10000 files, 100000 bytes, faults 0" "$program" sum
"$program" list | sed '1d;$d' >"$work/listed"
find . -name '*.go' -type f ! -name '*_test.go' ! -path '*/testdata/*' ! -path '*/.git/*' | sed 's,^\./,,' | LC_ALL=C sort >"$work/found"
cmp -s "$work/listed" "$work/found" && echo "    the paths are those of find, in byte order" || { echo "    the paths aren't those of find"; bad=1; }

# 2. links in a circle, and links to files
ln -s .. d0/up
ln -s "$work/large" d1/all
ln -s x0.go d1/e0/f0/y.go
ln -s nowhere d1/e0/f0/z.go
mkfifo d1/e0/f0/pipe.go
asks "links in a circle, links to files, a pipe" "10000 files" "$program" count

# 3. names that are no paths
mkdir -p "d2/two words" "d2/$(printf 'c\377d')"
printf 'package p\n' | tee "d2/two words/x.go" "d2/$(printf 'c\377d')/x.go" "d2/$(printf 'a\377b').go" >/dev/null
asks "names that aren't UTF-8, and one with a space" "10000 files" "$program" count

# 4. a long path: 1,024 bytes are a path, more are none
long=$(printf 'n%.0s' $(seq 1 199))
mkdir -p "$work/deep/$long/$long/$long/$long/$long"
(cd "$work/deep/$long/$long/$long/$long/$long" && printf 'package p\n' >"$(printf 'f%.0s' $(seq 1 21)).go" && printf 'package p\n' >"$(printf 'f%.0s' $(seq 1 22)).go")
cd "$work/deep" && asks "paths of 1,024 and of 1,025 bytes" "1 files" "$program" count

# 5. as another user: a file and a folder that can't be read
if [ "$(id -u)" = 0 ]; then
    mkdir -p "$work/other/a/b"
    cd "$work/other" || exit 2
    printf 'package p\n' | tee a.go a/b/c.go >/dev/null
    chmod 600 a.go
    asks "a file that can't be read" "read 1 files, 10 bytes, faults 1" setpriv --reuid 65534 --regid 65534 --clear-groups "$program" sum
    chmod 700 a/b
    asks "a folder that can't be read" "list: failed, faults 1" setpriv --reuid 65534 --regid 65534 --clear-groups "$program" count
    printf 'old' >w.go
    asks "a file in a folder that can't be written" "write w.go: failed, faults 1" setpriv --reuid 65534 --regid 65534 --clear-groups "$program" write 100 1
    holds "w.go is as it was" [ "$(cat w.go)" = old ]
fi

# 6. a file that is replaced keeps its mode, whatever the mask
mkdir "$work/mode" && cd "$work/mode" || exit 2
printf 'old' >w.go && chmod 640 w.go
asks "a file that is replaced" "write w.go: done, faults 0" bash -c "umask 077; exec '$program' write 1000000 5"
holds "w.go has its mode and 1,000,000 bytes" is_like w.go "640 1000000"
holds "nothing is left beside" is_tidy
ln -s w.go .gvet-new
asks "a link where the file beside is written" "write w.go: done, faults 0" "$program" write 2000 5
holds "w.go was replaced, and not the link followed" is_like w.go "640 2000"
holds "nothing is left beside" is_tidy

# 7. a limit on file size, and a full disk: the old bytes stay
asks "a write past a limit on file size" "write w.go: failed, faults 1" bash -c "trap '' XFSZ; ulimit -f 100; exec '$program' write 1000000 6"
holds "w.go is as it was" is_like w.go "640 2000"
holds "nothing is left beside" is_tidy
if [ "$(id -u)" = 0 ] && mkdir "$work/small" && mount -t tmpfs -o size=1m tmpfs "$work/small" 2>/dev/null; then
    small=$work/small
    cd "$small" || exit 2
    asks "a store on a small disk" "store: done" "$program" store 300000 1
    asks "a store on a disk that is full" "store: failed" "$program" store 900000 2
    asks "what is kept then" "300000 bytes, 0 others" "$program" fetch 1
    holds "nothing is left beside" is_tidy
    cd "$work" || exit 2
fi

# 8. killed at any moment: the old or the new bytes
mkdir "$work/killed" && cd "$work/killed" || exit 2
"$program" write 20000000 1 >/dev/null && mv w.go one && "$program" write 21000000 2 >/dev/null && cp w.go two
killed=0
old=0
for i in $(seq 1 60); do
    cp two w.go
    "$program" write 20000000 1 >/dev/null 2>&1 &
    sleep "$(printf '0.%03d' $((i * 5)))"
    kill -9 $! 2>/dev/null && killed=$((killed + 1))
    wait $! 2>/dev/null
    if cmp -s w.go two; then old=$((old + 1)); else holds "w.go has its old or its new bytes" cmp -s w.go one; fi
done
printf '%-52s killed %s of 60 times: old bytes %s times, new bytes %s times\n' "a file that is replaced, killed meanwhile" "$killed" "$old" $((60 - old))
cp two w.go && "$program" write 20000000 1 >/dev/null
holds "what was left beside is taken away by the next" is_tidy

# 9. a file that is longer than what is asked for, and grows meanwhile
mkdir "$work/grows" && cd "$work/grows" || exit 2
head -c 5000000 /dev/zero >g.go
(for _ in $(seq 1 200); do head -c 100000 /dev/zero >>g.go; done) &
asks "a file that grows while it is read" "4194305 bytes" "$program" read g.go 4194305
wait

# 10. the longest cache
mkdir "$work/kept" && cd "$work/kept" || exit 2
asks "a text of 268,435,456 bytes, stored" "store: done" "$program" store 268435456 7
asks "the same, fetched and compared" "268435456 bytes, 0 others" "$program" fetch 7
truncate -s 3G .gvet-cache
asks "a file of 3 GB where the cache stands" "fetch: done" bash -c "'$program' fetch 7 | sed -n 1p"
rm -f .gvet-cache && ln -s /etc/hostname .gvet-cache
asks "a link where the cache stands" "fetch: failed" "$program" fetch 7
exit $bad
