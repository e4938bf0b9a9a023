#!/usr/bin/env bash
# go_tree.sh OUT: some of Go 1.19's own packages (`src/go`) as a tree of module `go`, with stubs of what they import. What is newer than
# Go 1.17 is written as 1.17 has it: `any`, and `atomic.Pointer[File]` as a type of its own. Two constants lose their exponents, which are floats.
set -eu
here=$(cd "$(dirname "$0")" && pwd)
src=$(go env GOROOT)/src/go
mkdir -p "$1"
out=$(cd "$1" && pwd)
printf 'module go\n\ngo 1.17\n' > "$out/go.mod"
for p in token scanner ast parser build/constraint doc/comment; do
    mkdir -p "$out/$p"
    for f in "$src/$p"/*.go; do
        case $f in *_test.go | */gen*.go | */mkalldocs.go) ;; *) cp "$f" "$out/$p/" ;; esac
    done
done
find "$out" -name '*.go' -print0 | xargs -0 sed -i -E '\|^[[:space:]]*//|!s/\bany\b/interface{}/g'
sed -i 's/atomic\.Pointer\[File\]/filePointer/; /"sync\/atomic"/d' "$out/token/position.go"
sed -i 's/= 1e5$/= 100000/; s/= 1e3$/= 1000/' "$out/parser/parser.go" "$out/parser/resolver.go"
cat >> "$out/token/position.go" << 'END'

type filePointer struct{ file *File }

func (p *filePointer) Load() *File { return p.file }

func (p *filePointer) Store(file *File) { p.file = file }

func (p *filePointer) CompareAndSwap(old, new *File) bool {
	if p.file != old {
		return false
	}
	p.file = new
	return true
}
END
imports=$(grep -rhoE '^(import )?[[:space:]]*"[a-z0-9/]+"$' --include='*.go' "$out" | tr -d '"' | sed -E 's/^import//' | tr -d '[:blank:]' | sort -u)
module=$(cd "$out" && find . -name '*.go' -not -path './std/*' | sed -E 's|^\./|go/|; s|/[^/]*$||' | sort -u)
cd "$here"
mapfile -t stubs < <(comm -23 <(echo "$imports") <(echo "$module"))
go run . packages "$out" "${stubs[@]}"
