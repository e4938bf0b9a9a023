// Asks go/types about the trees in crates/check_cases/data, and prints each line where it refuses a declaration and
// no comment expects an error, or the other way. A tree whose first line says `Not for go/types` isn't asked, nor are those of analyzers/.
//
//	go run tools/agree/main.go     (Go 1.19; V=1 prints the other lines too)
package main

import (
	"fmt"
	"go/ast"
	"go/importer"
	"go/parser"
	"go/token"
	"go/types"
	"os"
	"path/filepath"
	"sort"
	"strings"
)

// A file of a tree.
type file struct{ path, text string }

// Packages that were checked before, by path.
type packages map[string]*types.Package

func (p packages) Import(path string) (*types.Package, error) {
	if found, ok := p[path]; ok {
		return found, nil
	}
	return importer.Default().Import(path)
}

// The files of a tree, a Go file or a bundle, with the note at its head.
func treeOf(path string) (note string, files []file) {
	bytes, err := os.ReadFile(path)
	if err != nil {
		panic(err)
	}
	text := string(bytes)
	if filepath.Ext(path) == ".go" {
		note, _, _ = strings.Cut(text, "\n")
		name := filepath.Base(filepath.Dir(path)) + "/" + filepath.Base(path)
		return note, []file{{name, text}}
	}
	sections := strings.Split(strings.TrimSuffix(text, "\n"), "\n-- ")
	for _, section := range sections[1:] {
		name, body, found := strings.Cut(section, " --\n")
		if !found {
			panic(path + ": a header that doesn't end")
		}
		files = append(files, file{name, body})
	}
	return sections[0], files
}

// Whether a message that begins with a tab says to what a refusal refers, and isn't a part of a circle that is refused itself.
func isOther(message, line string) bool {
	for _, other := range []string{"\tother declaration of ", "\tprevious case", "\tinner declaration of "} {
		if strings.HasPrefix(message, other) {
			return true
		}
	}
	return strings.HasPrefix(line, "func ")
}

// The line of a position.
func lineOf(files []file, at token.Position) string {
	for _, f := range files {
		if f.path == at.Filename {
			return strings.Split(f.text, "\n")[at.Line-1]
		}
	}
	return ""
}

// What go/types says of each line, by PATH:LINE.
func refused(files []file) map[string]string {
	folders := map[string][]file{}
	for _, f := range files {
		folder := filepath.Dir(f.path)
		folders[folder] = append(folders[folder], f)
	}
	// a package is imported by those whose names come before its own
	var order []string
	for folder := range folders {
		order = append(order, folder)
	}
	sort.Sort(sort.Reverse(sort.StringSlice(order)))
	said := map[string]string{}
	set := token.NewFileSet()
	known := packages{}
	for _, folder := range order {
		var trees []*ast.File
		for _, f := range folders[folder] {
			tree, err := parser.ParseFile(set, f.path, f.text, 0)
			if err != nil {
				fmt.Println("not parsed:", f.path, err)
			}
			trees = append(trees, tree)
		}
		config := types.Config{GoVersion: "go1.17", Importer: known, Error: func(err error) {
			told := err.(types.Error)
			at := set.Position(told.Pos)
			if strings.HasPrefix(told.Msg, "\t") && isOther(told.Msg, lineOf(folders[folder], at)) {
				return
			}
			line := fmt.Sprintf("%s:%d", at.Filename, at.Line)
			said[line] += fmt.Sprintf(" [%d %s]", at.Column, told.Msg)
		}}
		checked, _ := config.Check("m/"+folder, set, trees, nil)
		known["m/"+folder] = checked
	}
	return said
}

// What the comments expect of each line, by PATH:LINE.
func expected(files []file) map[string]string {
	errors := map[string]string{}
	for _, f := range files {
		for i, line := range strings.Split(f.text, "\n") {
			if _, words, found := strings.Cut(line, "// ERROR "); found {
				errors[fmt.Sprintf("%s:%d", f.path, i+1)] = words
			}
		}
	}
	return errors
}

func main() {
	paths, err := filepath.Glob("crates/check_cases/data/*/*")
	if err != nil || len(paths) == 0 {
		panic("no trees were found")
	}
	trees, differences := 0, 0
	for _, path := range paths {
		if strings.Contains(path, "/analyzers/") {
			continue
		}
		note, files := treeOf(path)
		if strings.Contains(note, "Not for go/types") {
			continue
		}
		trees++
		said, wanted := refused(files), expected(files)
		lines := map[string]bool{}
		for line := range said {
			lines[line] = true
		}
		for line := range wanted {
			lines[line] = true
		}
		var sorted []string
		for line := range lines {
			sorted = append(sorted, line)
		}
		sort.Strings(sorted)
		for _, line := range sorted {
			_, isSaid := said[line]
			_, isWanted := wanted[line]
			if isSaid != isWanted {
				differences++
				fmt.Printf("differs: %s, %s: expected %q, go/types says%s\n", path, line, wanted[line], said[line])
			} else if os.Getenv("V") != "" {
				fmt.Printf("agrees: %s: %s:%s\n", line, wanted[line], said[line])
			}
		}
	}
	fmt.Println("trees", trees, "differences", differences)
}
