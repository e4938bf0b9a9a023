package main

import (
	"fmt"
	"go/ast"
	"go/token"
	"go/types"
)

// How a function prints what it is handed: as it stands, by a format, by a format into an error; a sum of these.
type kind int

const (
	prints kind = 1 << iota
	byFormat
	makesError
)

// What gvet knows of itself, by package and name.
var known = map[string]map[string]kind{
	"fmt": {
		"Print": prints, "Println": prints, "Sprint": prints, "Sprintln": prints, "Fprint": prints, "Fprintln": prints,
		"Printf": byFormat, "Sprintf": byFormat, "Fprintf": byFormat, "Errorf": makesError,
	},
	"log": {
		"Print": prints, "Println": prints, "Fatal": prints, "Fatalln": prints, "Panic": prints, "Panicln": prints,
		"Printf": byFormat, "Fatalf": byFormat, "Panicf": byFormat,
	},
}

func knownToGvet(o *types.Func) bool {
	return o.Type().(*types.Signature).Recv() == nil && known[o.Pkg().Path()][o.Name()] != 0
}

// findWrappers finds the functions of a package that hand their last arguments on to one that prints them.
func (w *writer) findWrappers(u *unit) {
	for more := true; more; {
		more = false
		for _, file := range u.files {
			for _, d := range file.Decls {
				f, ok := d.(*ast.FuncDecl)
				if !ok {
					continue
				}
				o, ok := u.info.Defs[f.Name].(*types.Func)
				if !ok {
					continue
				}
				found := w.kinds[o]
				if knownToGvet(o) {
					found |= known[o.Pkg().Path()][o.Name()]
				} else if f.Body != nil {
					found |= w.wraps(u, o, f.Body)
				}
				more = more || found != w.kinds[o]
				w.kinds[o] = found
			}
		}
	}
}

// wraps tells how a body hands on the parameter `a ...interface{}`, and the string before it.
func (w *writer) wraps(u *unit, o *types.Func, body *ast.BlockStmt) kind {
	list, format := handed(o.Type().(*types.Signature))
	if list == nil || touches(u.info, body, list) {
		return 0
	}
	if format != nil && touches(u.info, body, format) {
		format = nil
	}
	found := kind(0)
	ast.Inspect(body, func(n ast.Node) bool {
		if _, ok := n.(*ast.FuncLit); ok {
			return false
		}
		call, ok := n.(*ast.CallExpr)
		if !ok || !call.Ellipsis.IsValid() || !isUse(u.info, call.Args[len(call.Args)-1], list) {
			return true
		}
		callee := w.kinds[calleeOf(u.info, call)]
		found |= callee & prints
		if format != nil && len(call.Args) > 1 && isUse(u.info, call.Args[len(call.Args)-2], format) {
			found |= callee & (byFormat | makesError)
		}
		return true
	})
	return found
}

// handed are the last parameter, where it is `...interface{}`, and the string before it.
func handed(sig *types.Signature) (list, format *types.Var) {
	count := sig.Params().Len()
	if !sig.Variadic() {
		return nil, nil
	}
	list = sig.Params().At(count - 1)
	slice, ok := list.Type().(*types.Slice)
	if !ok || !types.Identical(slice.Elem(), types.NewInterfaceType(nil, nil)) {
		return nil, nil
	}
	if count > 1 && types.Identical(sig.Params().At(count-2).Type(), types.Typ[types.String]) {
		format = sig.Params().At(count - 2)
	}
	return list, format
}

func isUse(info *types.Info, e ast.Expr, of *types.Var) bool {
	name, ok := e.(*ast.Ident)
	return ok && info.Uses[name] == of
}

// touches tells whether a variable is assigned or has its address taken.
func touches(info *types.Info, body *ast.BlockStmt, of *types.Var) bool {
	found := false
	ast.Inspect(body, func(n ast.Node) bool {
		switch n := n.(type) {
		case *ast.AssignStmt:
			for _, left := range n.Lhs {
				found = found || isUse(info, left, of)
			}
		case *ast.UnaryExpr:
			found = found || n.Op == token.AND && isUse(info, n.X, of)
		}
		return !found
	})
	return found
}

func calleeOf(info *types.Info, call *ast.CallExpr) *types.Func {
	var name *ast.Ident
	switch f := call.Fun.(type) {
	case *ast.Ident:
		name = f
	case *ast.SelectorExpr:
		name = f.Sel
	default:
		return nil
	}
	o, _ := info.Uses[name].(*types.Func)
	return o
}

// body is one that hands on what the function is handed as the function itself does.
func (s *stub) body(sig *types.Signature, k kind) string {
	count := sig.Params().Len()
	list, format := fmt.Sprintf("p%d...", count-1), fmt.Sprintf("p%d, ", count-2)
	call := func(name, arguments string) string {
		for p := range writing.units {
			if p != nil && p.Path() == "fmt" {
				s.mentioned = append(s.mentioned, p.Scope().Lookup(name))
			}
		}
		return "\t" + s.local("fmt", "fmt") + "." + name + "(" + arguments + ")\n"
	}
	text := " {\n"
	if k&prints != 0 {
		text += call("Sprint", list)
	}
	if k&byFormat != 0 {
		text += call("Sprintf", format+list)
	}
	if k&makesError != 0 {
		text += call("Errorf", format+list)
	}
	if sig.Results().Len() > 0 {
		text += "\treturn\n"
	}
	return text + "}"
}
