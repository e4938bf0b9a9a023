package main

import (
	"fmt"
	"go/ast"
	"go/format"
	"go/token"
	"go/types"
	"sort"
	"strings"
)

// A stub collects the declarations of one package.
type stub struct {
	of        *types.Package
	names     map[string]string // the local name of each package that was ever mentioned, by path
	imports   map[string]bool   // those that what was kept mentions
	texts     []string
	done      map[types.Object]bool
	todo      []types.Object
	asked     map[string]bool // methods that an interface of the package has and that aren't exported
	mentioned []types.Object
	outside   bool   // the declaration at hand mentions the package outside
	why       string // why the declaration at hand isn't what it was
}

// A writer has the stubs, and what differs in them: each declared object that was left out, or that has an opaque type, with the reason.
type writer struct {
	units  map[*types.Package]*unit
	stubs  map[*types.Package]*stub
	order  []*stub
	lost   map[types.Object]string
	opaque map[types.Object]string
	kinds  map[*types.Func]kind
	from   map[types.Object]*types.TypeName // the type that a type's declaration names
	needs  bool                             // the package outside is needed
}

func newWriter(units []*unit) *writer {
	w := &writer{
		units: map[*types.Package]*unit{}, stubs: map[*types.Package]*stub{},
		lost: map[types.Object]string{}, opaque: map[types.Object]string{}, kinds: map[*types.Func]kind{}, from: map[types.Object]*types.TypeName{},
	}
	for _, u := range units {
		w.units[u.types] = u
		w.findWrappers(u)
		w.findNamed(u)
	}
	writing = w
	return w
}

// findNamed finds the types that are declared with another's name, as `type T q.U`.
func (w *writer) findNamed(u *unit) {
	for _, file := range u.files {
		ast.Inspect(file, func(n ast.Node) bool {
			if t, ok := n.(*ast.TypeSpec); ok {
				name, ok := t.Type.(*ast.Ident)
				if q, is := t.Type.(*ast.SelectorExpr); is {
					name, ok = q.Sel, true
				}
				if ok {
					w.from[u.info.Defs[t.Name]], _ = u.info.Uses[name].(*types.TypeName)
				}
			}
			return true
		})
	}
}

// The writer at work.
var writing *writer

type outside struct{ why string }

func fail(why string) { panic(outside{why}) }

// kept writes what declares an object, and notes where it isn't what it was. Where it can't be written it mentions nothing.
func (s *stub) kept(o types.Object, write func() string) (text string, ok bool) {
	why, count, outer := s.why, len(s.mentioned), s.outside
	s.why = ""
	defer func() {
		if r := recover(); r != nil {
			reason, is := r.(outside)
			if !is {
				panic(r)
			}
			s.mentioned, s.outside = s.mentioned[:count], outer
			writing.lost[o] = reason.why
			text, ok = "", false
		} else if s.why != "" {
			writing.opaque[o] = s.why
		}
		s.why = why
	}()
	return write(), true
}

// add writes a declaration, and keeps what it mentions.
func (s *stub) add(o types.Object, write func() string) bool {
	s.mentioned, s.outside = nil, false
	text, ok := s.kept(o, write)
	if !ok {
		return false
	}
	s.texts = append(s.texts, text)
	if s.outside {
		s.imports[outsidePath], writing.needs = true, true
	}
	for _, o := range s.mentioned {
		if o.Pkg() != s.of {
			s.imports[o.Pkg().Path()] = true
		}
		t := writing.stubOf(o.Pkg())
		t.todo = append(t.todo, o)
	}
	return true
}

func (w *writer) stubOf(p *types.Package) *stub {
	s := w.stubs[p]
	if s == nil {
		s = &stub{of: p, names: map[string]string{}, imports: map[string]bool{}, done: map[types.Object]bool{}, asked: map[string]bool{}}
		w.stubs[p] = s
		w.order = append(w.order, s)
		for _, name := range p.Scope().Names() {
			if t, ok := p.Scope().Lookup(name).Type().Underlying().(*types.Interface); ok {
				for i := 0; i < t.NumMethods(); i++ {
					s.asked[t.Method(i).Name()] = true
				}
			}
		}
	}
	return s
}

// local is the name by which a package is imported here: its own, or with a number behind it where that is taken.
func (s *stub) local(path, name string) string {
	if path == outsidePath {
		s.outside = true
	}
	if known, ok := s.names[path]; ok {
		return known
	}
	free := func(name string) bool {
		for _, other := range s.names {
			if other == name {
				return false
			}
		}
		return s.of.Scope().Lookup(name) == nil && types.Universe.Lookup(name) == nil
	}
	given := name
	for i := 2; !free(given); i++ {
		given = fmt.Sprintf("%s%d", name, i)
	}
	s.names[path] = given
	return given
}

// whole writes all that a package exports, and then what this mentions, until there is no more.
func (w *writer) whole(u *unit) {
	if u.types == nil || len(u.files) == 0 {
		return // nothing of it is built here: gvet tells that it is missing
	}
	s := w.stubOf(u.types)
	for _, name := range u.types.Scope().Names() {
		if token.IsExported(name) {
			s.declare(u.types.Scope().Lookup(name))
		}
	}
	for more := true; more; {
		more = false
		for i := 0; i < len(w.order); i++ {
			more = w.order[i].rest() || more
		}
	}
}

// rest declares the types that declarations mention, until there are no more.
func (s *stub) rest() bool {
	more := false
	for len(s.todo) > 0 {
		o := s.todo[len(s.todo)-1]
		s.todo = s.todo[:len(s.todo)-1]
		if !s.done[o] {
			more = true
			s.declare(o)
		}
	}
	return more
}

// declare writes the declaration of an object of the package, once.
func (s *stub) declare(o types.Object) {
	if s.done[o] {
		return
	}
	s.done[o] = true
	switch o := o.(type) {
	case *types.Const:
		s.add(o, func() string { return s.constant(o) })
	case *types.Var:
		s.add(o, func() string { return "var " + o.Name() + " " + s.text(o.Type()) })
	case *types.Func:
		s.add(o, func() string { return s.function(o, "") })
	case *types.TypeName:
		s.declareType(o)
	}
}

func (s *stub) declareType(o *types.TypeName) {
	if o.IsAlias() {
		s.add(o, func() string { return "type " + o.Name() + " = " + s.text(o.Type()) })
		return
	}
	n := o.Type().(*types.Named)
	if n.TypeParams().Len() > 0 {
		writing.lost[o] = "type parameters"
		return
	}
	if !s.add(o, func() string { return "type " + o.Name() + " " + s.declared(o, n) }) {
		s.add(o, func() string { return "type " + o.Name() + " " + s.hidden(n.Underlying(), 0) })
	}
	for i := 0; i < n.NumMethods(); i++ {
		if m := n.Method(i); m.Exported() || s.asked[m.Name()] {
			s.add(m, func() string { return s.function(m, o.Name()) })
		}
	}
}

// declared spells what a type is declared with: the type that its declaration names, where this may be named here, or its form.
func (s *stub) declared(o *types.TypeName, n *types.Named) string {
	from := writing.from[o]
	if from == nil || from.Pkg() == nil || !from.Exported() && from.Pkg() != s.of {
		return s.text(n.Underlying())
	}
	if named, ok := from.Type().(*types.Named); ok && named.TypeParams().Len() > 0 {
		return s.text(n.Underlying())
	}
	return s.name(from)
}

// function writes a function, or a method of a type; where it prints what it is handed, with a body that does.
func (s *stub) function(o *types.Func, of string) string {
	sig := o.Type().(*types.Signature)
	text := "func "
	if of != "" {
		star := ""
		if _, ok := sig.Recv().Type().(*types.Pointer); ok {
			star = "*"
		}
		text += "(" + star + of + ") "
	}
	kind := writing.kinds[o]
	if kind == 0 || knownToGvet(o) {
		return text + o.Name() + s.signature(sig)
	}
	return text + o.Name() + s.namedSignature(sig, "p", "r") + s.body(sig, kind)
}

// file is the text of the stub.
func (s *stub) file() ([]byte, error) {
	text := "package " + s.of.Name() + "\n"
	var paths []string
	for path := range s.imports {
		paths = append(paths, path)
	}
	sort.Strings(paths)
	for _, path := range paths {
		text += fmt.Sprintf("\nimport %s %q\n", s.names[path], path)
	}
	sort.Strings(s.texts)
	return format.Source([]byte(text + "\n" + strings.Join(s.texts, "\n\n") + "\n"))
}
