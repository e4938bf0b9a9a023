package main

import (
	"fmt"
	"go/token"
	"go/types"
	"os"
	"path/filepath"
	"sort"
)

// nameOf is an object's name with its package, and with the type whose method it is.
func nameOf(o types.Object) string {
	name := o.Name()
	if sig, ok := o.Type().(*types.Signature); ok && sig.Recv() != nil {
		of := sig.Recv().Type()
		if p, ok := of.(*types.Pointer); ok {
			of = p.Elem()
		}
		if n, ok := of.(*types.Named); ok {
			name = n.Obj().Name() + "." + name
		}
	}
	return o.Pkg().Path() + "." + name
}

// uses lists the places of the module that use what a stub leaves out or has with an opaque type, and writes the list.
func (m *goModule) uses() ([]string, error) {
	w := m.writer()
	type use struct {
		at   token.Position
		text string
	}
	var found []use
	for _, u := range m.own {
		for name, o := range u.info.Uses {
			if why := w.differs(o); why != "" {
				found = append(found, use{at.Position(name.Pos()), nameOf(o) + ": " + why})
			}
		}
	}
	sort.Slice(found, func(i, k int) bool {
		a, b := found[i].at, found[k].at
		return a.Filename < b.Filename || a.Filename == b.Filename && a.Offset < b.Offset
	})
	list := []string{}
	for _, f := range found {
		path, err := filepath.Rel(m.dir, f.at.Filename)
		if err != nil {
			path = f.at.Filename
		}
		list = append(list, fmt.Sprintf("%s:%d:%d: %s", filepath.ToSlash(path), f.at.Line, f.at.Column, f.text))
	}
	return list, os.WriteFile(filepath.Join(m.out, "uses"), []byte(lines(list)), 0o666)
}

// differs says why a stub hasn't an object as it was, or nothing.
func (w *writer) differs(o types.Object) string {
	if why, ok := w.lost[o]; ok {
		return why
	}
	if why, ok := w.opaque[o]; ok {
		return why
	}
	var named types.Type
	switch o := o.(type) {
	case *types.Func:
		if sig := o.Type().(*types.Signature); sig.Recv() != nil {
			named = sig.Recv().Type()
		}
	case *types.TypeName:
		named = o.Type()
	}
	if named != nil && isInstance(named) {
		return "type parameters"
	}
	return ""
}
