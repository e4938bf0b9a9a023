#!/usr/bin/env bash
# Runs what the pages show: each file that a page of docs/rules calls refused or accepted, each in which a page of docs/analyzers says that
# something is reported or known, or that nothing is, the worked session of docs/FORMATS.md, and the sessions of README.md. Prints each that gives something else than its page says, each rule that has no refused or no accepted file,
# and how many were run; ends with 1 where something is wrong, or nothing was found on a page.
#
#     tools/check-pages.sh [PROGRAM]     PROGRAM is gvet as it was built; with none it is ./gvet, which proves and builds where it has to
#
# On a page of docs/rules stands, below a heading `### E31 ..`, a paragraph `Refused, `LINE` and `LINE`:` or `Accepted:`, and a go block:
# a file, or several, each behind a line `-- PATH --`. All that is printed of it are those lines. On a page of docs/analyzers the paragraphs
# are `Reported, `LINE` and `LINE`:` and `Silent:`, and the lines are those of `report`; or `Known, ..`, and they are those of `facts`. A session is a block of lines
# `$ COMMAND` and of what each prints.
set -u
cd "$(dirname "$0")/.." || exit 1
root=$PWD
program=${1:-./gvet}
[ -x "$program" ] || { echo "no program $program: running ./gvet"; program=./gvet; }
program=$(cd "$(dirname "$program")" && pwd)/$(basename "$program")
room=$(mktemp -d) || exit 1
trap 'rm -rf "$room"' EXIT
mkdir "$room/alone"
status=0

# Answers a script in a folder where no cache is kept.
answer() {
    rm -f "$room/alone/.gvet-cache"
    (cd "$room/alone" && "$program" session)
}
wrong() {
    echo "$1"
    status=1
}

# Takes the examples out of a page: for each NUMBER.name, NUMBER.want, the error lines, and NUMBER.text; says which rule lacks one.
take_out() {
    awk -v room="$2" -v page="$1" '
        function close_rule() {
            if (rule != "" && !refused) { print page ": " rule " has no refused file" }
            if (rule != "" && !accepted) { print page ": " rule " has no accepted file" }
        }
        /^### / { close_rule(); rule = $2; refused = 0; accepted = 0; kind = ""; next }
        in_block && /^```$/ {
            in_block = 0
            close(text)
            if (kind == "refused") { refused = 1 } else { accepted = 1 }
            kind = ""
            next
        }
        in_block { print > text; next }
        /^(Refused|Reported|Known), / { kind = "refused"; words = "" }
        /^(Accepted|Silent):/ { kind = "accepted"; words = "" }
        /^```go$/ {
            if (kind == "") { print page ": " rule " has a file that is neither refused nor accepted" ; kind = "accepted"; words = "" }
            in_block = 1
            count++
            base = room "/" sprintf("%03d", count)
            text = base ".text"
            printf "" > text
            print page ", " rule ", " kind > (base ".name")
            close(base ".name")
            want = base ".want"
            printf "" > want
            while (match(words, /`[^`]+`/)) {
                line = substr(words, RSTART + 1, RLENGTH - 2)
                words = substr(words, RSTART + RLENGTH)
                if (line ~ /^[^ :]+:[0-9]+:[0-9]+: / || line ~ /^[^ :]+: [^ :]+: .* never returns$/) {
                    print line > want
                    found++
                }
            }
            close(want)
            if (kind == "refused" && !found) { print page ": " rule " has a refused file with no printed line" }
            found = 0
            next
        }
        /^```/ { print page ": a block that is no go block"; next }
        kind != "" { words = words " " $0 }
        END { close_rule(); if (in_block) { print page ": a block that does not end" } }
    ' "$1"
}

# The script that puts the files of a text, and then the command. A text without a line `-- PATH --` is one file, at the path given.
script_of() {
    local files=$room/files
    rm -rf "$files"
    mkdir "$files"
    awk -v room="$files" -v path="$2" '
        function begin(name) { count++; base = room "/" sprintf("%03d", count); print name > (base ".path"); close(base ".path"); file = base ".go"; printf "" > file }
        /^-- [^ ]+ --$/ { begin($2); next }
        count == 0 { begin(path) }
        { print > file }
    ' "$1"
    for path in "$files"/*.path; do
        local file=${path%.path}.go
        echo "put $(cat "$path") $(wc -c <"$file" | tr -d ' ')"
        cat "$file"
        echo
    done
    echo "$3"
}

# Runs one example of a page by a command.
run_example() {
    local base=$1 command=$2 name first packages lines due
    name=$(cat "$base.name")
    first=$(grep -oE '^[^ :]+\.go:' "$base.want" | head -n 1 | tr -d :)
    script_of "$base.text" "${first:-a/a.go}" "$command" >"$base.script"
    packages=$(sed -n 's/^put \(.*\)\/[^/ ]* [0-9]*$/\1/p' "$base.script" | sort -u | wc -l | tr -d ' ')
    lines=$(wc -l <"$base.want" | tr -d ' ')
    due=0
    [ "$lines" -eq 0 ] || [ "$command" = facts ] || due=1
    cat "$base.want" >"$base.due"
    case $command in
    check) echo "packages $packages, errors $lines" ;;
    report) echo "packages $packages, errors 0, diagnostics $lines" ;;
    facts) echo "packages $packages, errors 0, facts $lines" ;;
    esac >>"$base.due"
    answer <"$base.script" >"$base.reply"
    local ended=$?
    if ! cmp -s "$base.due" "$base.reply"; then
        wrong "$name: what is printed (>) isn't what the page says (<)"
        diff "$base.due" "$base.reply"
    elif [ $ended -ne $due ]; then
        wrong "$name: the status is $ended, not $due"
    fi
}

# Runs the blocks of a page that have lines `$ COMMAND`, in a folder with the examples and the program.
run_sessions() {
    local page=$1 place=$2 count=0
    mkdir -p "$place/run"
    cp -r "$root/examples" "$place/run/examples"
    printf '#!/usr/bin/env bash\nexec %q "$@"\n' "$program" >"$place/run/gvet"
    chmod +x "$place/run/gvet"
    awk -v room="$place" '
        /^```/ { if (in_block) { in_block = 0; close(file) } else { in_block = 1; count++; file = room "/" sprintf("%03d", count) ".block" }; next }
        in_block { print > file }
    ' "$page"
    for block in "$place"/*.block; do
        [ -e "$block" ] && grep -qE '^\$ (.*\./gvet|examples/)' "$block" || continue
        count=$((count + 1))
        run_block "$page" "$block" "$place/run"
    done
    [ $count -gt 0 ] || wrong "$page: no session was found"
    sessions=$((sessions + count))
}

# Runs the commands of a block in turn, and prints each with its output, as the block has to have them.
run_block() {
    local page=$1 block=$2 place=$3
    if grep '^\$ ' "$block" | grep -qvE '^\$ (cat|cd|echo|\./gvet|(\.\./)+gvet|examples/|find|ls|printf) ?'; then
        wrong "$page: a session has a command that isn't run here: $(grep '^\$ ' "$block" | grep -vE '^\$ (cat|cd|echo|\./gvet|(\.\./)+gvet|examples/|find|ls|printf) ?' | head -n 1)"
        return
    fi
    {
        echo 'last() { return $1; }'
        echo 'ended=0'
        sed -n 's/^\$ //p' "$block" | while IFS= read -r command; do
            printf 'printf "%%s\\n" %q\n' "\$ $command"
            printf 'last $ended\n%s\nended=$?\n' "$command"
        done
    } >"$block.sh"
    (cd "$place" && bash "$block.sh") >"$block.reply" 2>/dev/null
    if ! cmp -s "$block" "$block.reply"; then
        wrong "$page: what a session prints (>) isn't what the page says (<)"
        diff "$block" "$block.reply"
    fi
}

# Runs the worked sessions of a page: a line `A worked session: `put PATH LENGTH` ..`, a block with the file, and one with the reply.
run_worked() {
    local page=$1 place=$2 count=0
    mkdir -p "$place"
    awk -v room="$place" '
        /^A worked session: `put / { count++; base = room "/" sprintf("%03d", count); split($0, parts, "`"); print parts[2] > (base ".put"); close(base ".put"); step = 1; next }
        /^```/ { if (in_block) { in_block = 0; close(file); step = step == 2 ? 3 : 0 } else { in_block = 1; file = ""; if (step == 1) { file = base ".text"; step = 2 } else if (step == 3) { file = base ".due"; step = 4 } }; next }
        in_block && file != "" { print > file }
    ' "$page"
    for put in "$place"/*.put; do
        [ -e "$put" ] || continue
        local base=${put%.put}
        count=$((count + 1))
        [ -e "$base.due" ] || { wrong "$page: a worked session without a file or a reply"; continue; }
        { cat "$put"; cat "$base.text"; echo; echo check; } | answer >"$base.reply"
        cmp -s "$base.due" "$base.reply" || { wrong "$page: what the worked session prints (>) isn't what the page says (<)"; diff "$base.due" "$base.reply"; }
    done
    [ $count -gt 0 ] || wrong "$page: no worked session was found"
    sessions=$((sessions + count))
}

# Runs the examples of all pages of a folder by a command; of a page where something is known, by `facts`.
run_pages() {
    local folder=$1 command page place lacks count
    for page in "$folder"/*.md; do
        [ "$page" != "$folder/README.md" ] || continue
        command=$2
        ! grep -q '^Known, ' "$page" || command=facts
        place=$room/$command-$(basename "$page" .md)
        mkdir "$place"
        lacks=$(take_out "$page" "$place")
        [ -z "$lacks" ] || wrong "$lacks"
        count=0
        for text in "$place"/*.text; do
            [ -e "$text" ] || continue
            run_example "${text%.text}" "$command"
            count=$((count + 1))
        done
        [ $count -gt 0 ] || wrong "$page: no example was found"
        examples=$((examples + count))
    done
}

examples=0
sessions=0
run_pages docs/rules check
run_pages docs/analyzers report
run_sessions README.md "$room/readme"
run_worked docs/FORMATS.md "$room/formats"
[ $examples -gt 0 ] || wrong "no page of docs/rules has an example"
echo "pages: $examples examples and $sessions sessions were run"
exit $status
