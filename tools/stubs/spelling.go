package main

import (
	"fmt"
	"go/constant"
	"go/types"
	"math/big"
	"strconv"
	"strings"
)

// The package of the types that stand for those outside gvet's profile.
const outsidePath = "gvet/outside"

// A struct that nothing is done with but handing it on: it suits each verb of printf, as it has a method Format, and can be compared.
const outsideText = `package outside

type opaque struct{ kept uint64 }

func (opaque) Format()

type Float32 struct{ opaque }

type Float64 struct{ opaque }

type Complex64 struct{ opaque }

type Complex128 struct{ opaque }

type Pointer struct{ opaque }

type Instance struct{ opaque }

type Lock struct{ kept int }

func (l *Lock) Lock()

func (l *Lock) Unlock()
`

var opaqueNames = map[types.BasicKind]string{
	types.Float32: "Float32", types.Float64: "Float64", types.Complex64: "Complex64", types.Complex128: "Complex128",
	types.UnsafePointer: "Pointer",
}

// opaque spells a type of the package outside, and says of the declaration why.
func (s *stub) opaque(name, why string) string {
	s.why = why
	return s.local(outsidePath, "outside") + "." + name
}

// name spells a type's name where this package stands.
func (s *stub) name(o *types.TypeName) string {
	if o.Pkg() == nil {
		if o.Name() == "any" {
			return "interface{}"
		}
		return o.Name()
	}
	if o.Parent() != o.Pkg().Scope() {
		fail("a type declared in a function")
	}
	if o.Pkg() == s.of {
		s.mentioned = append(s.mentioned, o)
		return o.Name()
	}
	if !o.Exported() {
		fail("a type that another package doesn't export")
	}
	s.mentioned = append(s.mentioned, o)
	return s.local(o.Pkg().Path(), o.Pkg().Name()) + "." + o.Name()
}

func (s *stub) basic(t *types.Basic) string {
	if name, ok := opaqueNames[t.Kind()]; ok {
		return s.opaque(name, t.String())
	}
	if t.Kind() == types.Invalid {
		fail("a type that Go refuses")
	}
	return t.Name()
}

// plainType is what an alias stands for, where this Go has types for aliases.
func plainType(t types.Type) types.Type {
	for {
		alias, ok := t.(interface{ Rhs() types.Type })
		if !ok {
			return t
		}
		t = alias.Rhs()
	}
}

// text spells a type.
func (s *stub) text(t types.Type) string {
	switch t := plainType(t).(type) {
	case *types.Basic:
		return s.basic(t)
	case *types.Named:
		if t.TypeArgs().Len() > 0 {
			return s.opaque("Instance", "type parameters")
		}
		return s.name(t.Obj())
	case *types.Pointer:
		return "*" + s.text(t.Elem())
	case *types.Slice:
		return "[]" + s.text(t.Elem())
	case *types.Array:
		return fmt.Sprintf("[%d]%s", t.Len(), s.text(t.Elem()))
	case *types.Map:
		return "map[" + s.text(t.Key()) + "]" + s.text(t.Elem())
	case *types.Chan:
		return channels[t.Dir()] + "(" + s.text(t.Elem()) + ")"
	case *types.Signature:
		return "func" + s.signature(t)
	case *types.Struct:
		return s.fields(t)
	case *types.Interface:
		return s.methods(t)
	}
	fail("type parameters")
	return ""
}

var channels = map[types.ChanDir]string{types.SendRecv: "chan ", types.SendOnly: "chan<- ", types.RecvOnly: "<-chan "}

// parameters spells parameters or results, with names where a prefix for these is given.
func (s *stub) parameters(t *types.Tuple, variadic bool, prefix string) string {
	var list []string
	for i := 0; i < t.Len(); i++ {
		name := ""
		if prefix != "" {
			name = fmt.Sprintf("%s%d ", prefix, i)
		}
		if slice, ok := t.At(i).Type().(*types.Slice); ok && variadic && i == t.Len()-1 {
			list = append(list, name+"..."+s.text(slice.Elem()))
		} else {
			list = append(list, name+s.text(t.At(i).Type()))
		}
	}
	return "(" + strings.Join(list, ", ") + ")"
}

func (s *stub) signature(t *types.Signature) string {
	return s.namedSignature(t, "", "")
}

func (s *stub) namedSignature(t *types.Signature, parameter, result string) string {
	if t.TypeParams().Len() > 0 || t.RecvTypeParams().Len() > 0 {
		fail("type parameters")
	}
	text := s.parameters(t.Params(), t.Variadic(), parameter)
	if t.Results().Len() == 1 && result == "" {
		return text + " " + s.text(t.Results().At(0).Type())
	}
	if t.Results().Len() > 0 {
		text += " " + s.parameters(t.Results(), false, result)
	}
	return text
}

// fields spells a struct. A field that can't be named from outside has a type of the same form; so has, without a name, one that is left out.
func (s *stub) fields(t *types.Struct) string {
	if t.NumFields() == 0 {
		return "struct{}"
	}
	text := "struct {"
	for i := 0; i < t.NumFields(); i++ {
		f := t.Field(i)
		var line string
		if f.Exported() || f.Embedded() {
			line = s.field(f)
		} else {
			line = f.Name() + " " + s.hidden(f.Type(), 0)
		}
		if tag := t.Tag(i); tag != "" {
			line += " " + strconv.Quote(tag)
		}
		text += "\n\t" + line
	}
	return text + "\n}"
}

func (s *stub) field(f *types.Var) string {
	line, ok := s.kept(f, func() string {
		if f.Embedded() {
			if isInstance(f.Type()) {
				fail("type parameters")
			}
			return s.text(f.Type())
		}
		return f.Name() + " " + s.text(f.Type())
	})
	if !ok {
		return "_ " + s.hidden(f.Type(), 0)
	}
	return line
}

func isInstance(t types.Type) bool {
	if p, ok := plainType(t).(*types.Pointer); ok {
		t = p.Elem()
	}
	n, ok := plainType(t).(*types.Named)
	return ok && n.TypeArgs().Len() > 0
}

// methods spells an interface: all that it asks, or, where another package's own methods are among these, by the names that it embeds.
func (s *stub) methods(t *types.Interface) string {
	if !t.IsMethodSet() {
		fail("type parameters")
	}
	if t.NumMethods() == 0 {
		return "interface{}"
	}
	embeds := false
	for i := 0; i < t.NumMethods(); i++ {
		m := t.Method(i)
		embeds = embeds || !m.Exported() && m.Pkg() != s.of
	}
	text, count, method := "interface {", t.NumMethods(), t.Method
	if embeds {
		for i := 0; i < t.NumEmbeddeds(); i++ {
			text += "\n\t" + s.text(t.EmbeddedType(i))
		}
		count, method = t.NumExplicitMethods(), t.ExplicitMethod
	}
	for i := 0; i < count; i++ {
		text += "\n\t" + method(i).Name() + s.signature(method(i).Type().(*types.Signature))
	}
	return text + "\n}"
}

// hidden spells a type that stands for one which nobody outside names. It has the form of the other as far as comparing values, copying
// locks and printing ask: what a pointer, function, channel or interface leads to isn't asked.
func (s *stub) hidden(t types.Type, depth int) string {
	if isLock(t) {
		return s.opaque("Lock", s.why)
	}
	if depth > 6 {
		return "struct{}"
	}
	switch u := t.Underlying().(type) {
	case *types.Basic:
		if name, ok := opaqueNames[u.Kind()]; ok {
			return s.opaque(name, s.why)
		}
		if u.Kind() != types.Invalid {
			return u.Name()
		}
	case *types.Pointer:
		return "*struct{}"
	case *types.Signature:
		return "func()"
	case *types.Chan:
		return "chan struct{}"
	case *types.Interface:
		return "interface{}"
	case *types.Slice:
		return "[]" + s.hidden(u.Elem(), depth+1)
	case *types.Array:
		return fmt.Sprintf("[%d]%s", u.Len(), s.hidden(u.Elem(), depth+1))
	case *types.Map:
		return "map[" + s.hidden(u.Key(), depth+1) + "]" + s.hidden(u.Elem(), depth+1)
	case *types.Struct:
		var list []string
		for i := 0; i < u.NumFields(); i++ {
			list = append(list, u.Field(i).Name()+" "+s.hidden(u.Field(i).Type(), depth+1))
		}
		return "struct{ " + strings.Join(list, "; ") + " }"
	}
	return "struct{}"
}

// isLock tells a struct type whose pointer has Lock and Unlock where the type itself hasn't both.
func isLock(t types.Type) bool {
	n, ok := plainType(t).(*types.Named)
	if !ok {
		return false
	}
	_, ok = n.Underlying().(*types.Struct)
	return ok && locks(types.NewPointer(n)) && !locks(n)
}

func locks(t types.Type) bool {
	set := types.NewMethodSet(t)
	for _, name := range []string{"Lock", "Unlock"} {
		m := set.Lookup(nil, name)
		if m == nil {
			return false
		}
		if sig, ok := m.Type().(*types.Signature); !ok || sig.Params().Len()+sig.Results().Len() > 0 {
			return false
		}
	}
	return true
}

// constant spells the declaration of a constant.
func (s *stub) constant(o *types.Const) string {
	basic, ok := o.Type().Underlying().(*types.Basic)
	if !ok || basic.Info()&(types.IsFloat|types.IsComplex) != 0 {
		fail("float")
	}
	text := o.Val().ExactString()
	switch o.Val().Kind() {
	case constant.Bool:
	case constant.String:
		if len(constant.StringVal(o.Val())) > 65536 {
			fail("long text")
		}
	case constant.Int:
		if n, ok := new(big.Int).SetString(text, 10); !ok || n.BitLen() > 127 {
			fail("wide")
		}
	default:
		fail("a type that Go refuses")
	}
	if basic.Kind() == types.UntypedRune {
		text = "'\\x00' + " + text
	}
	if basic.Info()&types.IsUntyped != 0 {
		return "const " + o.Name() + " = " + text
	}
	return "const " + o.Name() + " " + s.text(o.Type()) + " = " + text
}
