package main

import (
	"bytes"
	"fmt"
	"go/ast"
	"go/parser"
	"go/token"
	"io/fs"
	"os"
	"path"
	"path/filepath"
	"regexp"
	"sort"
	"strings"
)

// A tree is what was written below a folder.
type tree struct {
	out     string
	written map[string]bool
	skipped []string
}

// write writes a file where it isn't so yet.
func (t *tree) write(path string, text []byte) error {
	full := filepath.Join(t.out, path)
	t.written[full] = true
	if old, err := os.ReadFile(full); err == nil && bytes.Equal(old, text) {
		return nil
	}
	if err := os.MkdirAll(filepath.Dir(full), 0o777); err != nil {
		return err
	}
	return os.WriteFile(full, text, 0o666)
}

var segments = regexp.MustCompile(`^[A-Za-z0-9_.+~@/-]+$`)

// sources writes the files of a package that Go builds here.
func (t *tree) sources(u *unit, folder string) error {
	for _, name := range append(u.GoFiles, u.InvalidGoFiles...) {
		path := path.Join(folder, name)
		if !segments.MatchString(path) {
			t.skipped = append(t.skipped, path+": its name is no path for gvet")
			continue
		}
		text, err := os.ReadFile(filepath.Join(u.Dir, name))
		if err == nil {
			err = t.write(path, plain(text))
		}
		if err != nil {
			return err
		}
	}
	if needsAny(u) {
		text := "package " + u.Name + "\n\ntype any = interface{}\n"
		if err := t.write(path.Join(folder, "gvet_any.go"), []byte(text)); err != nil {
			return err
		}
	}
	for _, name := range u.IgnoredGoFiles {
		if !strings.HasSuffix(name, "_test.go") {
			t.skipped = append(t.skipped, path.Join(folder, name)+": Go doesn't build it here (its system, a build tag, or cgo)")
		}
	}
	return nil
}

// needsAny tells whether a package uses the name any and doesn't declare it. Since Go 1.18 it is predeclared; before, an alias of the package
// says the same.
func needsAny(u *unit) bool {
	uses := false
	for _, name := range u.GoFiles {
		text, err := os.ReadFile(filepath.Join(u.Dir, name))
		if err != nil || !bytes.Contains(text, []byte("any")) {
			continue
		}
		file, err := parser.ParseFile(token.NewFileSet(), "", text, 0)
		if err != nil || file.Scope.Lookup("any") != nil {
			return false
		}
		for _, open := range file.Unresolved {
			uses = uses || open.Name == "any"
		}
	}
	return uses
}

// plain makes comments of the build constraints, which Go has answered, without moving anything.
func plain(text []byte) []byte {
	file, _ := parser.ParseFile(token.NewFileSet(), "", text, parser.ImportsOnly|parser.ParseComments)
	if file == nil {
		return text
	}
	text = append([]byte{}, text...)
	for _, group := range file.Comments {
		for _, c := range group.List {
			from := int(c.Pos()) - 1
			if c.Pos() < file.Package && isConstraint(c) {
				mark := bytes.IndexAny(text[from:], ":+")
				text[from+mark] = '-'
			}
		}
	}
	return text
}

func isConstraint(c *ast.Comment) bool {
	return strings.HasPrefix(c.Text, "//go:build") ||
		strings.HasPrefix(c.Text, "//") && strings.HasPrefix(strings.TrimLeft(c.Text[2:], " \t"), "+build")
}

// stubs writes the stubs below std.
func (t *tree) stubs(w *writer) error {
	if w.needs {
		if err := t.write(filepath.Join("std", outsidePath, "stub.go"), []byte(outsideText)); err != nil {
			return err
		}
	}
	for _, s := range w.order {
		text, err := s.file()
		if err == nil {
			err = t.write(filepath.Join("std", s.of.Path(), "stub.go"), text)
		}
		if err != nil {
			return fmt.Errorf("the stub of %s: %v", s.of.Path(), err)
		}
	}
	return nil
}

func lines(list []string) string {
	if len(list) == 0 {
		return ""
	}
	return strings.Join(list, "\n") + "\n"
}

// prune takes away the Go files of an earlier run, but for the stubs where these are kept.
func (t *tree) prune(keep bool) error {
	stubs := filepath.Join(t.out, "std")
	return filepath.WalkDir(t.out, func(path string, d fs.DirEntry, err error) error {
		if err == nil && keep && path == stubs {
			return fs.SkipDir
		}
		if err == nil && !d.IsDir() && strings.HasSuffix(path, ".go") && !t.written[path] {
			err = os.Remove(path)
		}
		return err
	})
}

// leftOut says of each declaration of the stubs that isn't what it was in what it differs.
func (w *writer) leftOut() []string {
	var list []string
	for o, why := range w.lost {
		list = append(list, fmt.Sprintf("%s: left out: %s", nameOf(o), why))
	}
	for o, why := range w.opaque {
		list = append(list, fmt.Sprintf("%s: opaque: %s", nameOf(o), why))
	}
	sort.Strings(list)
	return list
}
