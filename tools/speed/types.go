// Parses and types a tree by go/parser and go/types, in one process, and prints the seconds: what `gvet check` is measured beside.
//
//	GO111MODULE=off go build -o OUT tools/speed/types.go; OUT FOLDER
//
// FOLDER is a tree as gvet takes it: a go.mod, and stub packages under std/. The packages are typed as Go 1.17, each after those that it imports, with
// what each expression, name and selector means recorded, as an analyzer needs it.
package main

import (
	"fmt"
	"go/ast"
	"go/parser"
	"go/token"
	"go/types"
	"io/fs"
	"log"
	"os"
	"path"
	"path/filepath"
	"strings"
	"time"
)

// A folder with Go files, and the package that comes of them.
type unit struct {
	path  string
	files []string
	typed *types.Package
}

type tree struct {
	set    *token.FileSet
	units  map[string]*unit
	errors int
	parsed time.Duration
}

func (t *tree) Import(path string) (*types.Package, error) {
	u, found := t.units[path]
	if !found {
		return nil, fmt.Errorf("no package %s", path)
	}
	t.check(u)
	return u.typed, nil
}

// Types a package, where that isn't done yet.
func (t *tree) check(u *unit) {
	if u.typed != nil {
		return
	}
	begun := time.Now()
	var files []*ast.File
	for _, name := range u.files {
		file, err := parser.ParseFile(t.set, name, nil, parser.SkipObjectResolution)
		if err != nil {
			t.errors++
		}
		files = append(files, file)
	}
	t.parsed += time.Since(begun)
	info := &types.Info{
		Types: map[ast.Expr]types.TypeAndValue{}, Defs: map[*ast.Ident]types.Object{}, Uses: map[*ast.Ident]types.Object{},
		Implicits: map[ast.Node]types.Object{}, Selections: map[*ast.SelectorExpr]*types.Selection{}, Scopes: map[ast.Node]*types.Scope{},
	}
	config := types.Config{GoVersion: "go1.17", Importer: t, Error: func(error) { t.errors++ }}
	u.typed, _ = config.Check(u.path, t.set, files, info)
}

// The path of the module, by its go.mod.
func module(root string) string {
	text, err := os.ReadFile(filepath.Join(root, "go.mod"))
	if err != nil {
		log.Fatal(err)
	}
	for _, line := range strings.Split(string(text), "\n") {
		if strings.HasPrefix(line, "module ") {
			return strings.TrimSpace(line[len("module "):])
		}
	}
	return ""
}

func main() {
	root := os.Args[1]
	prefix := module(root)
	t := &tree{set: token.NewFileSet(), units: map[string]*unit{}}
	var order []*unit
	begun := time.Now()
	err := filepath.WalkDir(root, func(name string, entry fs.DirEntry, err error) error {
		if err != nil || !strings.HasSuffix(name, ".go") {
			return err
		}
		folder, _ := filepath.Rel(root, filepath.Dir(name))
		of := path.Join(prefix, folder)
		if strings.HasPrefix(folder, "std/") {
			of = folder[len("std/"):]
		}
		if t.units[of] == nil {
			t.units[of] = &unit{path: of}
			order = append(order, t.units[of])
		}
		t.units[of].files = append(t.units[of].files, name)
		return nil
	})
	if err != nil {
		log.Fatal(err)
	}
	for _, u := range order {
		t.check(u)
	}
	fmt.Printf("packages %d, errors %d, parsed in %v, all in %v\n", len(order), t.errors, t.parsed, time.Since(begun))
}
