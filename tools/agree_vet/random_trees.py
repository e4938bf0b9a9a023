#!/usr/bin/env python3
"""Has gvet and x/tools' analyzers report on random trees, and prints each line in which one reports what the other doesn't.

    tools/agree_vet/random_trees.py PROGRAM FIRST LAST           PROGRAM is gvet; a tree for each seed from FIRST to before LAST
    tools/agree_vet/random_trees.py PROGRAM FIRST LAST facts     the same for the facts of ctrlflow, over the trees of never_trees.py
    tools/agree_vet/random_trees.py PROGRAM FIRST LAST flow      reports on those trees, which are full of what control doesn't come to

A tree has 40 packages of some 150 lines: chains of conditions, assignments, comparisons of functions with nil, conversions to strings, calls as
statements, copies of locks, tags. Lines are compared by file, line and analyzer, those of unreachable by column too. Packages that break a rule of typing are left out, after
both have to refuse them. What the pages in docs/analyzers say that `go vet` does otherwise is counted and not printed."""
import collections
import os
import random
import re
import shutil
import subprocess
import sys
import tempfile

import never_trees

HERE = os.path.dirname(os.path.realpath(__file__))
STUBS = {
    "sync": "type Mutex struct{ state int32 }\nfunc (m *Mutex) Lock()\nfunc (m *Mutex) Unlock()\n",
    "fmt": "func Errorf(format string, a ...interface{}) error\nfunc Sprint(a ...interface{}) string\nfunc Sprintf(format string, a ...interface{}) string\n"
    "func Sprintln(a ...interface{}) string\nfunc Println(a ...interface{}) (int, error)\n",
    "errors": "func New(text string) error\n",
    "sort": "type Interface interface{ Len() int }\nfunc Reverse(data Interface) Interface\n",
}
HEAD = """package %s

import (
	"errors"
	"fmt"
	"sort"
	"sync"
)

type L struct{ n int; x [2]int }
func (l *L) Lock() {}
func (l *L) Unlock() {}
type W struct{ l L }
type E struct { sm sync.Mutex; n int }
type RW struct { *L }
type A2 [2]L
type I interface { Lock(); Unlock() }
type T struct { n int; b bool; q *T; fn func() int; arr [4]int }
func (t T) get() int { return 1 }
func (t *T) put() {}
func (t T) String() string { return "" }
func (t T) Error() string { return "" }
type X2 struct{}
func (X2) String(int) string { return "" }
type EM struct{ T }
type Y struct { error }
type Named int
type Str string
type Alias = string
type N2 int16
const c1, c2, cs = 1, 2, "z"
const cr = 'r'
func f(x int) int { return x }
func g() bool { return false }
func bb(b bool) bool { return b }
func pkgf() {}
func str2() string { return "" }
func mk() L { return L{} }
func mkp() *L { return nil }
func mkl() []L { return nil }
func use(x interface{}) {}
func use2(n int, xs ...interface{}) {}
func fs(n int) *T { return nil }
var _ = fmt.Sprint
var _ = errors.New
var _ = sort.Reverse
"""
PARAMETERS = """i, j, k int, s T, p *T, a, b2 [4]int, sl []int, b, q bool, str string, m map[string]int, ch chan int, cb chan bool, fn func() int, e error, \
r rune, by byte, i8 int8, u uint, up uintptr, i64 int64, bs []byte, mm map[int][]int, aa [2][2]int, pi *int, x2 X2, em EM, y Y"""
VARIABLES = """	var l L; var pl *L; var w W; var pw *W; var al [2]L; var sll []L; var sm map[string]L; var ii interface{}; var ee E; var mu sync.Mutex; var cl chan L
	use2(1, &l, pl, &w, pw, &al, sll, sm, ii, &ee, &mu, cl)
"""
PLACES = "i j s.n p.n a[0] a[i] sl[j] *pi m[\"k\"] p.q.n a[f(1)] sl[<-ch] (i) (*p).n sl[int(j)] mm[1][0] aa[1][0] s.arr[i+1] fs(1).n".split()
FUNCTIONS = "f g s.get p.put pkgf T.get (*T).put fn s.fn str2".split()
LOCKS = """l *pl w *pw al al[0] sll[0] sm["a"] ii.(L) L{} mk() *mkp() L(l) (l) (mk()) (*mkp()) W{}.l w.l pw.l *(mkp()) ee ee.sm mu *(pl) <-cl""".split()
LOCK_TYPES = "L|*L|[2]L|[]L|W|*W|E|I|sync.Mutex|map[string]L|chan L|func(L)|A2|struct{ l L }|RW|struct{ E; x int }".split("|")
TO_STRINGS = "i|r|by|i8|u|N2(i)|c1|3|'x'|up|i64|rune(i)|by + 1|str|bs|int32(i)|uint8(3)|(i)|f(1)|1 << 3|cr".split("|")
CALLS = """fmt.Sprintf("x")|fmt.Sprint(i)|fmt.Errorf("x")|errors.New("x")|e.Error()|s.String()|p.String()|fmt.Println("x")|sort.Reverse(nil)|x2.String(1)|\
fmt.Sprintln()|s.Error()|go fmt.Sprint(1)|defer fmt.Sprint(1)|str2()|(fmt.Sprint)(1)|(fmt.Sprint(1))|(e).Error()|em.String()|y.Error()""".split("|")
TAGS = r"""`json:"a"`!`json:"b"`!`json:"a,omitempty"`!`xml:"a"`!`xml:"a,attr"`!`xml:"b,attr"`!`json:"-"`!`json:",omitempty"`!`bad`!`json:"a" xml:"b"`!`json:"x"xml:"y"`!\
`k:"v"  l:"w"`!` k:"v"`!`k:"v" `!`json:a`!"json:\"q\""!"json:\"q\" "!`json:"c" json:"d"`!`:"x"`!`a b:"c"`!`json:"\""`!`xml:"ns a"`!`k:"a\qb"`!`json:"é"`!`k:""`!``""".replace("\\\n", "").split("!")
one = random.choice


def number(depth):
    """An expression of type int."""
    if depth == 0 or random.random() < 0.35:
        return one("i j k s.n p.n a[0] a[i] sl[j] 1 2 c1 c2".split())
    inner = number(depth - 1)
    return one([f"{inner} {one('+-*')} {number(depth - 1)}", f"({inner})", f"f({inner})", f"int({inner})", "<-ch", f"len({one(['str', 'sl', 'a'])})", 'm["k"]', "s.get()", "int(int8(i))", "p.q.n"])


def condition():
    """An operand of a chain."""
    same = one(["==", "!="])
    return one([
        f"i {same} {one(['1', '2', 'c1', 'c2'])}", f"{one(['1', '2', 'c1'])} {same} i", f"{number(1)} {one(['==', '!=', '<'])} {one(['i', 'j', 's.n'])}",
        one("b q s.b !b (b) g() bb(b)".split()), f"str {same} " + one(['"x"', '"y"', "cs"]), f"(i {same} {one(['1', '2'])})", f"{one(['p', 'fn', 'e'])} {same} nil", "<-cb",
        f"Named(i) == {one(['3', '4'])}", f"{one(['a', 'b2'])} == {one(['a', 'b2'])}",
    ])


def chain(depth):
    operator, operands = one(["&&", "||"]), []
    for _ in range(random.randint(2, 4)):
        if operands and random.random() < 0.35:
            operands.append(one(operands))
        elif depth and random.random() < 0.3:
            operands.append("(" + chain(depth - 1) + ")")
        else:
            operands.append(condition())
    return f" {operator} ".join(operands)


def copy():
    """A statement that may copy a lock."""
    value = one(LOCKS)
    return one([
        f"_ = {value}", f"{{ var z = {value}; _ = &z }}", f"{{ z := {value}; _ = &z }}", f"use({value})", f"use2(1, {value}, {one(LOCKS)})",
        f"_ = []interface{{}}{{{value}, {one(LOCKS)}}}", f'_ = map[string]interface{{}}{{"a": {value}}}',
        f"for _, z := range {one(['al', 'sll', 'sm', '[]interface{}{l}', '[]W{}', 'mkl()'])} {{ _ = &z }}", "{ var z L; for _, z = range sll { _ = &z } }",
        f"_ = func(x {one(LOCK_TYPES)}) {{}}", f"_ = func() interface{{}} {{ return {value} }}", f"_ = len({one(['al', 'sll'])})", "_ = new(L)", "l = *pl", "l, w = *pl, *pw",
    ])


def assignment():
    place = one(PLACES)
    value = place if random.random() < 0.6 else one(PLACES)
    if place.startswith("fs("):
        place, value = "i", one(["i", place])
    return f"{place}, {one('kj')} = {value}, {one('kj')}" if random.random() < 0.2 else f"{place} = {value}"


def statement():
    return one([
        lambda: f"_ = {chain(2)}", lambda: f"_ = {chain(2)}", assignment, copy, copy,
        lambda: f"if {one(FUNCTIONS)} {one(['==', '!='])} nil {{ i++ }}", lambda: f"if nil {one(['==', '!='])} {one(FUNCTIONS)} {{ i++ }}",
        lambda: f"_ = {one(['string', 'Str', 'Alias'])}({one(TO_STRINGS)})", lambda: one(CALLS),
    ])()


def package(name):
    text = HEAD % name
    for i in range(6):
        receiver = one(["x ", "", "_ "]) + one(["", "*"]) + one(["L", "W", "E", "RW", "A2"])
        text += f"func ({receiver}) m{i}({one(['', 'a L', 'a, b L, c *L', 'L', 'L, W', 'a ...L', 'a [2]L'])}) {{}}\n"
    for i in range(4):
        text += f"type G{i} struct {{\n"
        for k in range(random.randint(1, 6)):
            embedded = one(["T", "*W", "L", "X2"])
            field = embedded if random.random() < 0.15 else one(["A", "B", "c", "d", "E9", "X"]) + str(k) + " " + one(["int", "string"])
            text += f"\t{field} {one(TAGS)}\n"
        text += "}\n"
    for i in range(5):
        text += f"func h{i}({PARAMETERS}) {{\n{VARIABLES}" + "".join(f"\t{statement()}\n" for _ in range(12)) + "}\n"
    return text


def tree(seed):
    random.seed(seed)
    files = {"go.mod": "module m\n"}
    files.update({f"std/{name}/{name}.go": f"package {name}\n{text}" for name, text in STUBS.items()})
    files.update({f"p{i}/p.go": package(f"p{i}") for i in range(40)})
    return files


def is_known(analyzer, of_gvet, source):
    """Whether a page in docs/analyzers says so, by the line and the two before it: a panic that the file declares; parentheses are dropped where a copy is made, and kept where operands are compared; fmt.Sprintln; a name of one dash."""
    if analyzer == "unreachable":
        return of_gvet and "panic := fn; panic(" in source
    source = source.split("\n")[-1]
    if of_gvet:
        return analyzer == "unusedresult" and "Sprintln" in source or analyzer == "structtag" and 'json:"-"' in source
    return analyzer == "copylocks" and re.search(r"\((\*?)mkp?\(\)\)", source) or analyzer == "bools" and re.search(r"\((b|i [!=]= \d)\)", source)


def reported(lines, typing):
    """The lines by file, place and analyzer, and the packages in which typing errors are told."""
    found, refused = {}, refused_in(line for line in lines if line.startswith("refused") or re.match(r"[^ ]+: (" + typing + "|blocked)", line))
    for line in lines:
        told = re.match(r"(p\d+/\w+\.go):(\d+):(\d+): (\w+): ", line)
        if told and not re.match(typing, told[4]):
            found[told[1], int(told[2]), told[4], told[3] if told[4] == "unreachable" else ""] = line
    return found, refused


def replies(program, agree, folder, files, command):
    """What both print of a tree, by lines: gvet by a command of a session, x/tools over the tree's folder."""
    for path, text in files.items():
        os.makedirs(os.path.dirname(f"{folder}/{path}"), exist_ok=True)
        with open(f"{folder}/{path}", "w") as out:
            out.write(text)
    script = b"".join(f"put {path} {len(text.encode())}\n{text}\n".encode() for path, text in sorted(files.items())) + f"{command}\n".encode()
    ours = subprocess.run([program, "session"], input=script, stdout=subprocess.PIPE).stdout.decode().split("\n")
    words = [agree, folder] if command == "report" else [agree, command, folder]
    theirs = subprocess.run(words, stdout=subprocess.PIPE, stderr=subprocess.DEVNULL, check=True).stdout.decode().split("\n")
    shutil.rmtree(folder)
    return ours, theirs


def compare_reports(seed, files, ours, theirs, counts):
    (ours, refused), (theirs, refused_too) = reported(ours, r"E\d|outside"), reported(theirs, r"E\d")
    for name in sorted(refused ^ refused_too):
        print(f"seed {seed}: one of both refuses {name}")
    for key in sorted(ours.keys() | theirs.keys()):
        if key[0].split("/")[0] in refused:
            continue
        source = "\n".join(files[key[0]].split("\n")[max(0, key[1] - 3) : key[1]])
        if key in ours and key in theirs:
            counts[key[2], "both"] += 1
        elif is_known(key[2], key in ours, source):
            counts[key[2], "as its page says"] += 1
        else:
            counts[key[2], "one"] += 1
            print(f"seed {seed}: {'gvet' if key in ours else 'x/tools'} alone: {ours.get(key) or theirs.get(key)}\n    {source.split(chr(10))[-1].strip()}")
    counts["packages", "compared"] += 40 - len(refused | refused_too)


def refused_in(lines):
    """The packages that aren't accepted: with errors, or that import one with errors."""
    told = [re.match(r"(?:refused: )?(p\d+)/\w+\.go:\d+:\d+: |m/(p\d+): blocked", line) for line in lines]
    return {match[1] or match[2] for match in told if match}


def compare_facts(seed, files, ours, theirs, counts):
    refused, refused_too = refused_in(ours), refused_in(theirs)
    for name in sorted(refused ^ refused_too):
        print(f"seed {seed}: one of both refuses {name}")
    found = {line for line in ours if line.endswith(" never returns")}
    by_cause = {cause: {line[len(cause) :] for line in theirs if line.startswith(cause)} for cause in ("circles: ", "expressions: ")}
    alone = {line for line in theirs if line.endswith(" never returns") and not line.startswith(tuple(by_cause))}
    counts["ctrlflow", "both"] += len(found & alone)
    for cause, lines in by_cause.items():
        counts["ctrlflow", f"as its page says, {cause[:-2]}"] += len(lines & (found ^ alone))
    due = alone - by_cause["expressions: "] | by_cause["circles: "]
    for line in sorted(found ^ due):
        counts["ctrlflow", "one"] += 1
        print(f"seed {seed}: {'gvet' if line in found else 'x/tools'} alone: {line}")
    counts["packages", "compared"] += len({path.split("/")[0] for path in files if path.startswith("p")} - refused - refused_too)


def main():
    program, first, last = sys.argv[1], int(sys.argv[2]), int(sys.argv[3])
    command = sys.argv[4] if len(sys.argv) > 4 else "report"
    tree_of, compare = tree if command == "report" else never_trees.tree, compare_facts if command == "facts" else compare_reports
    command = "report" if command == "flow" else command
    room = tempfile.mkdtemp()
    env = {**os.environ, "GO111MODULE": "off", "GOPATH": "/usr/share/gocode"}
    subprocess.run(["go", "build", "-o", f"{room}/agree", f"{HERE}/main.go"], env=env, check=True)
    counts = collections.Counter()
    for seed in range(first, last):
        files = tree_of(seed)
        compare(seed, files, *replies(program, f"{room}/agree", f"{room}/{seed}", files, command), counts)
    shutil.rmtree(room)
    for (what, which), count in sorted(counts.items()):
        print(f"{what}, {which}: {count}")


main()
