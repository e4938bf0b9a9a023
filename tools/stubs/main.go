// Stubs makes a tree that gvet takes of a module that Go builds: its files, and a stub for each package that they import.
//
//	stubs report GVET DIR [WORDS..]  makes the tree of the module in DIR in DIR/.gvet/tree, and reports on it by the program GVET
//	stubs module DIR OUT             makes the tree in OUT alone
//	stubs packages OUT PATH..        makes the stubs alone, of these packages and what they mention
//
// A stub has the exported declarations of a package, without bodies, and what these mention. Go itself, by `go list`, says which files are a
// package here, and its type checker what they declare; nothing else is needed. README.md says what stands in place of what lies outside
// gvet's profile. The file `left-out` in a tree lists it by declaration, `uses` the places of the module that use one of these; `key` is of the
// packages that the stubs are of.
package main

import (
	"crypto/sha256"
	"errors"
	"fmt"
	"os"
	"path/filepath"
	"runtime"
	"strings"
)

const usage = "usage: stubs report GVET DIR [WORDS..] | stubs module DIR OUT | stubs packages OUT PATH.."

// The status where there is no reply of gvet's, whose own are lower.
const failed = 70

func main() {
	status := 0
	var err error
	switch words := os.Args[1:]; {
	case len(words) > 2 && words[0] == "report":
		status, err = report(words[1], words[2], words[3:])
	case len(words) == 3 && words[0] == "module":
		err = module(words[1], words[2])
	case len(words) > 2 && words[0] == "packages":
		err = packages(words[1], words[2:])
	default:
		err = errors.New(usage)
	}
	if err != nil {
		fmt.Fprintf(os.Stderr, "stubs: %v\n", err)
		status = failed
	}
	os.Exit(status)
}

// module makes the tree of a module.
func module(dir, out string) error {
	m, err := open(dir, out)
	if err == nil {
		err = m.lay()
	}
	if err == nil {
		_, err = m.uses()
	}
	return err
}

// packages writes the stubs of packages by path.
func packages(out string, paths []string) error {
	units, err := list(".", paths...)
	if err != nil {
		return err
	}
	w := newWriter(load(units))
	for _, u := range units {
		if u.Error != nil {
			return errors.New(u.Error.Err)
		}
		if !u.DepOnly {
			w.whole(u)
		}
	}
	t := &tree{out: out, written: map[string]bool{}}
	if err := t.stubs(w); err != nil {
		return err
	}
	fmt.Fprintf(os.Stderr, "stubs: %d packages\n", len(w.order))
	return t.write("left-out", []byte(lines(w.leftOut())))
}

// A module is one that Go builds, and the tree that is made of it.
type goModule struct {
	dir, out   string
	path       string
	units, own []*unit
	instead    map[*unit]bool // packages that a stub stands for
	typed      *writer
	skipped    []string
	asked      map[*unit]bool // packages that any tree of this run has a stub of
	keys       []string       // of the trees of this run
}

// open lists a module. A package with a file that is over gvet's limit has a stub in its place from the start.
func open(dir, out string) (*goModule, error) {
	full, err := filepath.Abs(dir)
	if err == nil {
		full, err = filepath.EvalSymlinks(full)
	}
	if err != nil {
		return nil, err
	}
	units, err := list(full, "./...")
	if err != nil {
		return nil, err
	}
	own, err := ownUnits(units)
	if err != nil {
		return nil, err
	}
	m := &goModule{dir: full, out: out, units: units, own: own, instead: map[*unit]bool{}, asked: map[*unit]bool{}}
	m.path = own[0].ImportPath
	if at := m.folder(own[0]); at != "." {
		m.path = strings.TrimSuffix(m.path, "/"+at)
	}
	return m, nil
}

// folder is the folder of a package, from that of the module.
func (m *goModule) folder(u *unit) string {
	at, err := filepath.Rel(m.dir, u.Dir)
	if err != nil {
		return u.Dir
	}
	return filepath.ToSlash(at)
}

// writer types the packages, where that is needed.
func (m *goModule) writer() *writer {
	if m.typed == nil {
		m.typed = newWriter(load(m.units))
	}
	return m.typed
}

// lay writes the tree, and takes away what an earlier one had. Stubs of packages that are as they were stay, and nothing is typed.
func (m *goModule) lay() error {
	t := &tree{out: m.out, written: map[string]bool{}}
	if err := t.write("go.mod", []byte("module "+m.path+"\n")); err != nil {
		return err
	}
	for _, u := range m.own {
		if m.instead[u] {
			continue
		}
		if err := t.sources(u, m.folder(u)); err != nil {
			return err
		}
	}
	m.skipped = t.skipped
	asks := m.asks()
	for u := range asks {
		m.asked[u] = true
	}
	m.keys = append(m.keys, keyOf(m.units, asks))
	if m.knows(asks) {
		return t.prune(true)
	}
	w := m.writer()
	for _, u := range m.units {
		if m.asked[u] {
			w.whole(u)
		}
	}
	err := t.stubs(w)
	if err == nil {
		err = t.write("left-out", []byte(lines(w.leftOut())))
	}
	if err == nil {
		err = t.write("key", []byte(lines(m.keys)))
	}
	if err != nil {
		return err
	}
	return t.prune(false)
}

// asks are the packages that the tree needs a stub of.
func (m *goModule) asks() map[*unit]bool {
	asks := map[*unit]bool{}
	for _, u := range m.own {
		if m.instead[u] {
			continue
		}
		for _, p := range u.Imports {
			if to := u.imported(p); to != nil && (to.DepOnly || m.instead[to]) && p != "unsafe" && p != "C" {
				asks[to] = true
			}
		}
	}
	return asks
}

// knows tells whether these stubs stand in the tree already.
func (m *goModule) knows(asks map[*unit]bool) bool {
	keys, err := os.ReadFile(filepath.Join(m.out, "key"))
	return err == nil && strings.Contains(string(keys), keyOf(m.units, asks))
}

// keyOf tells whether stubs are still those of their packages and by this program: of Go's own by its version and
// by which files are built, of others by each file.
func keyOf(units []*unit, asked map[*unit]bool) string {
	sum := sha256.New()
	if self, err := os.Executable(); err == nil {
		text, _ := os.ReadFile(self)
		sum.Write(text)
	}
	fmt.Fprintln(sum, runtime.Version())
	for _, u := range units {
		if asked[u] {
			fmt.Fprintln(sum, "asked", u.ImportPath, u.DepOnly)
		}
		if u.Standard {
			fmt.Fprintln(sum, u.ImportPath, u.GoFiles)
		} else if u.DepOnly || asked[u] {
			for _, name := range u.GoFiles {
				full := filepath.Join(u.Dir, name)
				if info, err := os.Stat(full); err == nil {
					fmt.Fprintln(sum, full, info.Size(), info.ModTime().UnixNano())
				}
			}
		}
	}
	return fmt.Sprintf("%x", sum.Sum(nil))
}
