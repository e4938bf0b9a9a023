// Runs x/tools' analyzers (Debian's golang-golang-x-tools-dev) over a tree, in one process, and tells where gvet reports something else.
//
//	GO111MODULE=off GOPATH=/usr/share/gocode go run tools/agree_vet/main.go
//
// compares what the bundles in crates/check_cases/data/analyzers say, and prints each line that only one of both reports an analyzer's diagnostic in.
//
//	GO111MODULE=off GOPATH=/usr/share/gocode go run tools/agree_vet/main.go FOLDER
//
// prints what x/tools reports of the tree in a folder, as PATH:LINE:COLUMN: ANALYZER: TEXT, and the seconds that it took.
//
//	GO111MODULE=off GOPATH=/usr/share/gocode go run tools/agree_vet/main.go facts FOLDER
//
// prints the facts of ctrlflow of all packages of the tree, in the manner of gvet's `facts`. Behind them, with `circles: ` before each, stand those that the
// analyzer doesn't find as it breaks circles of calls: members of the least set over the same graphs, parentheses dropped, calls `T.m(x)` left out; and
// with `expressions: ` those that it finds by calls `T.m(x)` alone.
//
// A tree has a go.mod and, under std/, stub packages, as gvet takes it; its packages are typed as Go 1.17.
package main

import (
	"fmt"
	"go/ast"
	"go/parser"
	"go/token"
	"go/types"
	"io/fs"
	"os"
	"path"
	"path/filepath"
	"reflect"
	"sort"
	"strings"
	"time"

	"golang.org/x/tools/go/analysis"
	"golang.org/x/tools/go/analysis/passes/assign"
	"golang.org/x/tools/go/analysis/passes/bools"
	"golang.org/x/tools/go/analysis/passes/copylock"
	"golang.org/x/tools/go/analysis/passes/ctrlflow"
	"golang.org/x/tools/go/analysis/passes/nilfunc"
	"golang.org/x/tools/go/analysis/passes/printf"
	"golang.org/x/tools/go/analysis/passes/stringintconv"
	"golang.org/x/tools/go/analysis/passes/structtag"
	"golang.org/x/tools/go/analysis/passes/unreachable"
	"golang.org/x/tools/go/analysis/passes/unusedresult"
	"golang.org/x/tools/go/ast/astutil"
	"golang.org/x/tools/go/cfg"
	"golang.org/x/tools/go/types/typeutil"
)

// The analyzers, by gvet's names.
var analyzers = []struct {
	name string
	of   *analysis.Analyzer
}{
	{"assign", assign.Analyzer}, {"bools", bools.Analyzer}, {"copylocks", copylock.Analyzer}, {"nilfunc", nilfunc.Analyzer},
	{"printf", printf.Analyzer}, {"stringintconv", stringintconv.Analyzer}, {"structtag", structtag.Analyzer}, {"unreachable", unreachable.Analyzer},
	{"unusedresult", unusedresult.Analyzer},
}

// The files of a tree, by path.
type tree map[string]string

// Functions that never return, of which a stub has no body. The other ones are known to ctrlflow itself.
var listed = map[string]bool{
	"os.Exit": true, "log.Fatal": true, "log.Fatalf": true, "log.Fatalln": true, "log.Panic": true, "log.Panicf": true, "log.Panicln": true,
}

// The Go files of a folder, and the package that comes of them.
type unit struct {
	path    string
	files   []string
	trees   []*ast.File
	info    *types.Info
	pkg     *types.Package
	stub    bool
	refused bool
}

// A run over one tree: its packages in order of import, and functions with the fact that they never return.
type run struct {
	set     *token.FileSet
	files   tree
	units   map[string]*unit
	checked []*unit
	lines   []string
	facts   map[types.Object]bool
	// the facts of printf, by its own type of facts
	wraps map[types.Object]analysis.Fact
}

func (r *run) Import(path string) (*types.Package, error) {
	u, ok := r.units[path]
	if !ok {
		return nil, fmt.Errorf("no package %s", path)
	}
	r.check(u)
	if u.refused {
		return nil, fmt.Errorf("package %s is refused", path)
	}
	return u.pkg, nil
}

// Types a package, where that isn't done yet.
func (r *run) check(u *unit) {
	if u.pkg != nil {
		return
	}
	for _, name := range u.files {
		file, err := parser.ParseFile(r.set, name, r.files[name], 0)
		if err != nil {
			panic(err)
		}
		u.trees = append(u.trees, file)
	}
	u.info = &types.Info{
		Types: map[ast.Expr]types.TypeAndValue{}, Defs: map[*ast.Ident]types.Object{}, Uses: map[*ast.Ident]types.Object{},
		Implicits: map[ast.Node]types.Object{}, Selections: map[*ast.SelectorExpr]*types.Selection{}, Scopes: map[ast.Node]*types.Scope{},
	}
	config := types.Config{GoVersion: "go1.17", Importer: r, Error: func(err error) {
		fmt.Println("refused:", err)
		u.refused = true
	}}
	u.pkg, _ = config.Check(u.path, r.set, u.trees, u.info)
	r.checked = append(r.checked, u)
}

// Runs an analyzer and before it what it requires, each once.
func (r *run) analyze(u *unit, name string, a *analysis.Analyzer, results map[*analysis.Analyzer]interface{}) {
	if _, done := results[a]; done {
		return
	}
	for _, required := range a.Requires {
		r.analyze(u, required.Name, required, results)
	}
	pass := &analysis.Pass{
		Analyzer: a, Fset: r.set, Files: u.trees, Pkg: u.pkg, TypesInfo: u.info, TypesSizes: types.SizesFor("gc", "amd64"), ResultOf: results,
		Report: func(d analysis.Diagnostic) {
			at := r.set.Position(d.Pos)
			r.lines = append(r.lines, fmt.Sprintf("%s:%d:%d: %s: %s", at.Filename, at.Line, at.Column, name, d.Message))
		},
		ExportObjectFact: func(of types.Object, fact analysis.Fact) {
			if name == "printf" {
				r.wraps[of] = fact
			} else {
				r.facts[of] = true
			}
		},
		ImportObjectFact: func(of types.Object, into analysis.Fact) bool {
			if name != "printf" {
				return r.facts[of]
			}
			fact, ok := r.wraps[of]
			if ok {
				reflect.ValueOf(into).Elem().Set(reflect.ValueOf(fact).Elem())
			}
			return ok
		},
	}
	result, err := a.Run(pass)
	if err != nil {
		panic(err)
	}
	results[a] = result
}

// A tree with its packages, by path.
func runOf(files tree) (r *run, paths []string) {
	r = &run{set: token.NewFileSet(), files: files, units: map[string]*unit{}, facts: map[types.Object]bool{}, wraps: map[types.Object]analysis.Fact{}}
	module := "m"
	if text, ok := files["go.mod"]; ok {
		module = strings.Fields(text)[1]
	}
	var names []string
	own := map[string]bool{}
	for name := range files {
		if strings.HasSuffix(name, ".go") && !strings.HasSuffix(name, "_test.go") {
			names = append(names, name)
			if !strings.HasPrefix(name, "std/") {
				own[path.Join(module, path.Dir(name))] = true
			}
		}
	}
	sort.Strings(names)
	for _, name := range names {
		folder := path.Dir(name)
		stub := strings.HasPrefix(folder, "std/")
		of := path.Join(module, folder)
		if stub {
			of = strings.TrimPrefix(folder, "std/")
		}
		// a package of the module stands for the stub of its path
		if stub && own[of] {
			continue
		}
		if r.units[of] == nil {
			r.units[of] = &unit{path: of, stub: stub}
			paths = append(paths, of)
		}
		r.units[of].files = append(r.units[of].files, name)
	}
	sort.Strings(paths)
	return r, paths
}

// Types the packages, and runs ctrlflow over them in order of import.
func (r *run) flows(paths []string) map[*unit]map[*analysis.Analyzer]interface{} {
	for _, of := range paths {
		r.check(r.units[of])
	}
	results := map[*unit]map[*analysis.Analyzer]interface{}{}
	for _, u := range r.checked {
		results[u] = map[*analysis.Analyzer]interface{}{}
		for _, name := range u.pkg.Scope().Names() {
			if listed[u.path+"."+name] {
				r.facts[u.pkg.Scope().Lookup(name)] = true
			}
		}
		r.analyze(u, "ctrlflow", ctrlflow.Analyzer, results[u])
	}
	return results
}

// Whether facts of printf are asked for, by the word wraps.
var facts = len(os.Args) > 2 && os.Args[1] == "wraps"

// What printf knows of a package, in gvet's form.
func (r *run) wrapLines(u *unit) (lines []string) {
	words := map[string]string{"printWrapper": "print", "printfWrapper": "printf", "errorfWrapper": "errorf"}
	for _, d := range u.info.Defs {
		if fact, ok := r.wraps[d]; ok && d != nil && factName(d.(*types.Func)) != "" {
			lines = append(lines, fmt.Sprintf("%s: printf: %s %s", u.path, factName(d.(*types.Func)), words[fmt.Sprint(fact)]))
		}
	}
	sort.Strings(lines)
	return lines
}

// What x/tools reports of a tree.
func reported(files tree) (lines []string, packages int) {
	r, paths := runOf(files)
	results := r.flows(paths)
	for _, u := range r.checked {
		r.analyze(u, "printf", printf.Analyzer, results[u])
	}
	if facts {
		for _, of := range paths {
			r.lines = append(r.lines, r.wrapLines(r.units[of])...)
		}
		return r.lines, len(paths)
	}
	for _, of := range paths {
		u := r.units[of]
		if u.stub {
			continue
		}
		for _, a := range analyzers {
			r.analyze(u, a.name, a.of, results[u])
		}
	}
	return r.lines, len(paths)
}

// A function's name in a fact, and none of those that have no fact.
func factName(f *types.Func) string {
	if f.Name() == "init" || f.Name() == "_" {
		return ""
	}
	to := f.Type().(*types.Signature).Recv()
	if to == nil {
		return f.Name()
	}
	of := to.Type()
	if pointer, ok := of.(*types.Pointer); ok {
		of = pointer.Elem()
	}
	return of.(*types.Named).Obj().Name() + "." + f.Name()
}

// Whether a body never returns, where these functions don't.
func isNever(u *unit, body *ast.BlockStmt, members map[types.Object]bool) bool {
	graph := cfg.New(body, func(call *ast.CallExpr) bool {
		fun := astutil.Unparen(call.Fun)
		if id, ok := fun.(*ast.Ident); ok && u.info.Uses[id] == types.Universe.Lookup("panic") {
			return false
		}
		if chosen, ok := fun.(*ast.SelectorExpr); ok {
			if selection, ok := u.info.Selections[chosen]; ok && selection.Kind() == types.MethodExpr {
				return true
			}
		}
		f := typeutil.StaticCallee(u.info, call)
		return f == nil || !members[f]
	})
	for _, b := range graph.Blocks {
		if b.Live && b.Return() != nil {
			return false
		}
	}
	return true
}

// Adds to the members the least set of a package's functions that never return.
func (r *run) addLeast(u *unit, members map[types.Object]bool) {
	for _, file := range u.trees {
		ast.Inspect(file, func(n ast.Node) bool {
			if s, ok := n.(*ast.ExprStmt); ok {
				s.X = astutil.Unparen(s.X)
			}
			return true
		})
	}
	for grows := true; grows; {
		grows = false
		for _, file := range u.trees {
			for _, d := range file.Decls {
				f, ok := d.(*ast.FuncDecl)
				if !ok || members[u.info.Defs[f.Name]] || u.info.Defs[f.Name] == nil {
					continue
				}
				path := u.path + "." + f.Name.Name
				known := f.Recv == nil && (listed[path] || path == "runtime.Goexit" || path == "syscall.Exit")
				if known || f.Body != nil && isNever(u, f.Body, members) {
					members[u.info.Defs[f.Name]] = true
					grows = true
				}
			}
		}
	}
}

// The functions of a package with a fact, by name.
func (u *unit) named(members map[types.Object]bool) map[string]bool {
	names := map[string]bool{}
	for _, d := range u.info.Defs {
		if f, ok := d.(*types.Func); ok && members[f] {
			if name := factName(f); name != "" {
				names[name] = true
			}
		}
	}
	return names
}

// The lines of the names that one has and the other doesn't.
func lineEach(u *unit, what string, names, without map[string]bool) (lines []string) {
	for name := range names {
		if !without[name] {
			lines = append(lines, fmt.Sprintf("%s%s: ctrlflow: %s never returns", what, u.path, name))
		}
	}
	sort.Strings(lines)
	return lines
}

// What ctrlflow knows of the functions of a tree.
func known(files tree) (lines []string, packages int) {
	r, paths := runOf(files)
	r.flows(paths)
	least := map[types.Object]bool{}
	for _, u := range r.checked {
		if !u.refused {
			r.addLeast(u, least)
		}
	}
	var circles []string
	for _, of := range paths {
		u := r.units[of]
		if u.refused {
			continue
		}
		theirs, all := u.named(r.facts), u.named(least)
		lines = append(lines, lineEach(u, "", theirs, nil)...)
		circles = append(circles, lineEach(u, "circles: ", all, theirs)...)
		circles = append(circles, lineEach(u, "expressions: ", theirs, all)...)
	}
	return append(lines, circles...), len(paths)
}

// The tree in a folder.
func treeIn(folder string) tree {
	files := tree{}
	err := filepath.WalkDir(folder, func(name string, entry fs.DirEntry, err error) error {
		if err != nil || entry.IsDir() {
			return err
		}
		bytes, err := os.ReadFile(name)
		if err != nil {
			return err
		}
		short, err := filepath.Rel(folder, name)
		files[short] = string(bytes)
		return err
	})
	if err != nil {
		panic(err)
	}
	return files
}

// The tree of a bundle, and what gvet reports of it by its last section.
func treeOf(bundle string) (files tree, due []string, command string) {
	bytes, err := os.ReadFile(bundle)
	if err != nil {
		panic(err)
	}
	files = tree{}
	for _, section := range strings.Split(string(bytes), "\n-- ")[1:] {
		name, body, found := strings.Cut(section, " --\n")
		if !found {
			panic(bundle + ": a header that doesn't end")
		}
		if name == "report" || name == "facts" {
			due, command = strings.Split(strings.TrimSpace(body), "\n"), name
		} else {
			files[name] = body
		}
	}
	return files, due, command
}

// The line and the analyzer of a reported line, which is how lines are compared: what is said differs in its words.
func keyOf(line string) (key string, ok bool) {
	parts := strings.SplitN(line, ":", 5)
	if len(parts) < 5 {
		return "", false
	}
	return parts[0] + ":" + parts[1] + ":" + parts[3], true
}

func keysOf(lines []string) map[string]string {
	keys := map[string]string{}
	for _, line := range lines {
		if key, ok := keyOf(line); ok {
			keys[key] = line
		}
	}
	return keys
}

// The lines of facts, without what stands behind the analyzer's own.
func factsOf(lines []string) map[string]string {
	keys := map[string]string{}
	for _, line := range lines {
		if strings.HasSuffix(line, " never returns") && !strings.HasPrefix(line, "circles: ") && !strings.HasPrefix(line, "expressions: ") {
			keys[line] = line
		}
	}
	return keys
}

// Prints what only one reports.
func compare(bundle string) (same, differs int) {
	files, due, command := treeOf(bundle)
	theirs, ours := map[string]string{}, keysOf(due)
	if command == "facts" {
		lines, _ := known(files)
		theirs, ours = factsOf(lines), factsOf(due)
	} else {
		lines, _ := reported(files)
		theirs = keysOf(lines)
	}
	var said []string
	for key, line := range theirs {
		if _, ok := ours[key]; ok {
			same++
		} else {
			said = append(said, "x/tools alone: "+line)
		}
	}
	for key, line := range ours {
		if _, ok := theirs[key]; !ok {
			said = append(said, "gvet alone: "+line)
		}
	}
	sort.Strings(said)
	for _, line := range said {
		fmt.Println(filepath.Base(bundle)+":", line)
	}
	return same, len(said)
}

func main() {
	if len(os.Args) > 1 {
		began := time.Now()
		of, what := reported, "diagnostics"
		if os.Args[1] == "facts" {
			of, what = known, "facts"
		}
		lines, packages := of(treeIn(os.Args[len(os.Args)-1]))
		for _, line := range lines {
			fmt.Println(line)
		}
		fmt.Fprintf(os.Stderr, "packages %d, %s %d, seconds %.2f\n", packages, what, len(lines), time.Since(began).Seconds())
		return
	}
	bundles, err := filepath.Glob("crates/check_cases/data/analyzers/*.txtar")
	if err != nil || len(bundles) == 0 {
		panic("no bundles were found")
	}
	all, others := 0, 0
	for _, bundle := range bundles {
		same, differs := compare(bundle)
		all, others = all+same, others+differs
	}
	fmt.Printf("bundles %d, lines of both %d, of one %d\n", len(bundles), all, others)
}
