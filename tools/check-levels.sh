#!/usr/bin/env bash
# docs/ARCHITECTURE.md has each crate of crates.txt once, at its level: one above the highest of the crates that it stands on.
# The ways that lead from a crate down to others are counted too: rt sums a library's files up twice for each of them, some two milliseconds
# each, in which little else is done. A crate that passes on (`pub use`) what its public clauses cite spares those above it a dependency.
# And what a crate's files cite stands in its row: a check over the sources of the crates below lets more pass, and the gate sees it late.
# Prints what differs, and ends with 1 where something does.
set -u
cd "$(dirname "$0")/.." || exit 1
status=0
while IFS=: read -r head below; do
    crate=${head%% *}
    for cited in $(grep -rhoE 'Rattle\.[a-z][a-z_0-9]*' "crates/$crate" --include='*.rt' --include='*.antt' --exclude-dir=out | sort -u | cut -d. -f2); do
        if [[ $cited != "$crate" && " $below " != *" $cited "* ]] && grep -q "^$cited[ :]" crates.txt; then
            echo "$crate: its files cite $cited, which its row of crates.txt lacks"
            status=1
        fi
    done
done < <(grep '^[a-z]' crates.txt)
awk -F: '
    FNR == NR && !/^#/ && NF > 1 { split($1, word, " "); name[++n] = word[1]; below[word[1]] = $2; next }
    FNR == NR { next }
    /^\| [0-9]+ \| `/ { split($0, cell, "|"); crate = cell[3]; gsub(/[ `]/, "", crate); said[crate] = cell[2] + 0; times[crate]++ }
    function level(crate,   list, count, k, most, one) {
        if (crate in known) return known[crate]
        count = split(below[crate], list, " "); most = 0
        for (k = 1; k <= count; k++) if (list[k] in below) { one = level(list[k]); if (one > most) most = one }
        return known[crate] = most + 1
    }
    function ways(crate,   list, count, k, all) {
        if (crate in led) return led[crate]
        count = split(below[crate], list, " "); all = 1
        for (k = 1; k <= count; k++) if (list[k] in below) all += ways(list[k])
        return led[crate] = all
    }
    END {
        if (n == 0) { print "crates.txt has no crates"; exit 1 }
        for (i = 1; i <= n; i++) {
            if (times[name[i]] != 1) { print name[i] ": stands " times[name[i]] + 0 " times in ARCHITECTURE"; bad = 1 }
            else if (said[name[i]] != level(name[i])) { print name[i] ": ARCHITECTURE says level " said[name[i]] ", crates.txt gives " level(name[i]); bad = 1 }
        }
        for (i = 1; i <= n; i++) { all += ways(name[i]); if (ways(name[i]) > most_ways) { most_ways = ways(name[i]); widest = name[i] } }
        print "ways: " all " in all, " most_ways " from " widest
        if (all > 1500000) { print "more than 1500000 ways: let a crate between pass on what is cited"; bad = 1 }
        for (crate in said) if (!(crate in below)) { print crate ": no crate of crates.txt"; bad = 1 }
        print "levels: " n " crates looked at"
        exit bad
    }' crates.txt docs/ARCHITECTURE.md || status=1
exit $status
