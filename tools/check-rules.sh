#!/usr/bin/env bash
# Each rule that the code names by its number has: a page in docs/rules with an accepted example, a row in the table of docs/rules/README.md,
# a definition in some specs/, its number in the code that finds it, a case, and an edit that has to be refused. A case is a line of a
# file of crates/check_cases/data that expects the number, as `// ERROR E31` or `// ERROR 12:E31`. Prints what lacks, and ends with 1
# where something does, or where no rules were found.
set -u
cd "$(dirname "$0")/.." || exit 1
status=0
lacks() {
    echo "E$1: no $2"
    status=1
}

# Whether some section of a page with this number has an accepted example.
has_accepted() {
    awk -v heading="### E$1 " '
        index($0, "### ") == 1 { inside = index($0, heading) == 1; if (inside) { sections++ }; counted = 0 }
        inside && /^Accepted:/ && !counted { accepted++; counted = 1 }
        END { exit !(sections > 0 && accepted == sections) }
    ' <(cat docs/rules/*.md)
}

# `pub const NAME: Rule = Rule(N);`, as the rules stand in the code
constants='^pub const [A-Z0-9_]+: Rule = Rule\([0-9]+\);'
numbers=$(grep -rhoE "$constants" crates/*/src | grep -oE '\([0-9]+\)' | tr -d '()' | sort -nu)
[ -n "$numbers" ] || { echo "no rules were found"; exit 1; }
named=$(grep -rlE "$constants" crates/*/src)
code=$(find crates/*/src -name '*.rt' ! -name '*tests.rt' ! -path '*/tests/*' ! -path 'crates/*_tests/*' | grep -vxF "$named")
for n in $numbers; do
    grep -qE "^### E$n " docs/rules/*.md || lacks "$n" "page in docs/rules"
    has_accepted "$n" || lacks "$n" "accepted example on each of its pages"
    grep -qE "^\| E$n \|" docs/rules/README.md || lacks "$n" "row in docs/rules/README.md"
    grep -qrE "\bE$n\b" crates/*/specs || lacks "$n" "definition in specs"
    grep -qE "\bE$n\b" $code || lacks "$n" "number in the code"
    grep -qrE "// ERROR ([^ ]+ )*([0-9]+:)?E$n( |\$)" crates/check_cases/data || lacks "$n" "case in check_cases"
    ls crates/*/must-fail/e"$n"_*.edit crates/*/edits/e"$n"_*.edit 2>/dev/null | grep -q . || lacks "$n" "edit in must-fail or edits"
done
echo "rules: $(echo "$numbers" | wc -l | tr -d ' ') looked at"
exit $status
