package main

import (
	"bytes"
	"encoding/json"
	"errors"
	"fmt"
	"go/ast"
	"go/parser"
	"go/token"
	"go/types"
	"io"
	"os"
	"os/exec"
	"path/filepath"
	"runtime"
	"strings"
)

// A unit is a package as the go command lists it, and what its files declare.
type unit struct {
	ImportPath, Name, Dir string
	Standard, DepOnly     bool
	GoFiles, Imports      []string
	IgnoredGoFiles        []string
	InvalidGoFiles        []string
	ImportMap             map[string]string
	Module                *struct{ Path string }
	Error                 *struct{ Pos, Err string }

	among map[string]*unit // all units, by import path
	files []*ast.File
	types *types.Package
	info  *types.Info
	wrong []error
}

// path is the path by which files import the package: what stands behind a vendor folder.
func (u *unit) path() string {
	if i := strings.LastIndex("/"+u.ImportPath, "/vendor/"); i >= 0 {
		return u.ImportPath[i+len("vendor/"):]
	}
	return u.ImportPath
}

// imported is the package that a file of this one means by a path.
func (u *unit) imported(path string) *unit {
	if to, ok := u.ImportMap[path]; ok {
		path = to
	}
	return u.among[path]
}

// list asks the go command for packages and for all that they import, each behind those that it imports. Files of cgo are left to others.
func list(dir string, patterns ...string) ([]*unit, error) {
	if _, err := exec.LookPath("go"); err != nil {
		return nil, errors.New("the command go isn't on the path: install Go, or add its bin folder to PATH")
	}
	command := exec.Command("go", append([]string{"list", "-e", "-deps", "-json", "--"}, patterns...)...)
	command.Dir = dir
	command.Env = append(os.Environ(), "CGO_ENABLED=0", "PWD="+dir)
	var said bytes.Buffer
	command.Stderr = &said
	answer, err := command.Output()
	if err != nil {
		return nil, fmt.Errorf("go can't list the packages in %s:\n%s", dir, strings.TrimSpace(said.String()))
	}
	var units []*unit
	among := map[string]*unit{}
	for from := json.NewDecoder(bytes.NewReader(answer)); ; {
		u := &unit{among: among}
		if err := from.Decode(u); err == io.EOF {
			break
		} else if err != nil {
			return nil, err
		}
		among[u.ImportPath] = u
		units = append(units, u)
	}
	return units, nil
}

// ownUnits are the packages of the module, or why Go can't build it. What a file of the module itself does wrong gvet tells.
func ownUnits(units []*unit) ([]*unit, error) {
	var own []*unit
	var wrong []string
	for _, u := range units {
		files := len(u.GoFiles) + len(u.InvalidGoFiles)
		switch {
		case u.Error != nil && files == 0 && len(u.IgnoredGoFiles) == 0:
			said := strings.TrimSpace(u.Error.Pos + " " + u.Error.Err)
			if strings.Contains(said, "does not contain main module") {
				said = "there is no go.mod in this folder or above it: `go mod init PATH` makes one"
			}
			wrong = append(wrong, said)
		case !u.DepOnly && u.Dir != "":
			own = append(own, u)
		}
	}
	if len(wrong) > 0 {
		return nil, fmt.Errorf("Go doesn't build the module:\n%s", strings.Join(wrong, "\n"))
	}
	if len(own) == 0 {
		return nil, errors.New("there is no package of Go here")
	}
	return own, nil
}

// load parses and types the units in turn. What Go refuses in one is kept with it.
func load(units []*unit) []*unit {
	positions := token.NewFileSet()
	for _, u := range units {
		if u.ImportPath == "unsafe" {
			u.types = types.Unsafe
			continue
		}
		for _, name := range u.GoFiles {
			file, err := parser.ParseFile(positions, filepath.Join(u.Dir, name), nil, parser.SkipObjectResolution)
			if err != nil {
				u.wrong = append(u.wrong, err)
			}
			if file != nil {
				u.files = append(u.files, file)
			}
		}
		u.info = &types.Info{Uses: map[*ast.Ident]types.Object{}, Defs: map[*ast.Ident]types.Object{}}
		config := types.Config{
			Importer: u, FakeImportC: true, IgnoreFuncBodies: u.DepOnly && !handsOn(u.files), Sizes: types.SizesFor("gc", runtime.GOARCH),
			Error: func(err error) { u.wrong = append(u.wrong, err) },
		}
		u.types, _ = config.Check(u.path(), positions, u.files, u.info)
	}
	at = positions
	return units
}

// handsOn tells whether a function takes a list of anything, which it may hand on to print it; else nothing is asked of bodies.
func handsOn(files []*ast.File) bool {
	for _, file := range files {
		for _, d := range file.Decls {
			f, ok := d.(*ast.FuncDecl)
			if !ok || len(f.Type.Params.List) == 0 {
				continue
			}
			list := f.Type.Params.List
			last, ok := list[len(list)-1].Type.(*ast.Ellipsis)
			if !ok {
				continue
			}
			switch t := last.Elt.(type) {
			case *ast.InterfaceType:
				return true
			case *ast.Ident:
				if t.Name == "any" {
					return true
				}
			}
		}
	}
	return false
}

// The places of the files that were loaded.
var at *token.FileSet

// Import gives the package that a file of this one imports.
func (u *unit) Import(path string) (*types.Package, error) {
	if path == "unsafe" {
		return types.Unsafe, nil
	}
	if to := u.imported(path); to != nil && to.types != nil {
		return to.types, nil
	}
	return nil, fmt.Errorf("no package %s", path)
}
