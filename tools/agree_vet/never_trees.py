"""Random trees of functions that may never return, for random_trees.py.

A tree has 40 packages of two files, each importing up to three before it: functions and methods that call one another in circles, promoted methods, methods of
interfaces, functions that are values, deferred and started calls, panic and what has its name, listed functions, loops, labels, goto, select, switches."""
import random

STUBS = {
    "os": "func Exit(code int)\nfunc Getpid() int\n",
    "runtime": "func Goexit()\nfunc GC()\n",
    "syscall": "func Exit(code int)\nfunc Getpid() int\n",
    "log": "".join(f"func {name}(v ...interface{{}})\n" for name in "Fatal Fatalln Panic Panicln Print".split()) + "func Fatalf(format string, v ...interface{})\nfunc Panicf(format string, v ...interface{})\n",
}
# stubs with bodies: what never returns by them, and not by a list
BODIES = {
    "testing": "import \"runtime\"\ntype common struct{ n int }\ntype T struct{ common }\nfunc (c *common) FailNow() { c.n = 1; runtime.Goexit() }\n"
    "func (c *common) Fatal(v ...interface{}) { c.FailNow() }\nfunc (c common) Log(v ...interface{}) { c.n++ }\n",
}
LISTED = "os.Exit(i)|runtime.Goexit()|syscall.Exit(1)|log.Fatal(i)|log.Fatalf(\"x\", i)|log.Fatalln()|log.Panic()|log.Panicf(\"x\")|log.Panicln(c)".split("|")
HARMLESS = "log.Print(i)|runtime.GC()|tt.Log(c)".split("|")
one, chance = random.choice, lambda share: random.random() < share


class Body:
    """Writes one body. Labels that a `goto` names stand in the body's own list."""

    def __init__(self, calls, returns):
        self.calls, self.returns, self.labels, self.count = calls, returns, [], 0

    def call(self):
        kind = random.random()
        if kind < 0.62:
            return one(self.calls)
        if kind < 0.74:
            return one(LISTED)
        if kind < 0.84:
            return one(HARMLESS)
        if kind < 0.96:
            return one(["panic(i)", "panic(nil)", "tt.FailNow()", "tt.Fatal(i)"])
        return one(["(panic)(i)", "(" + one(self.calls) + ")", "(os.Exit)(1)", "(os.Exit(1))", "A.mA0(a, i)", "(*A).mB0(&a, i)", "(*B).mA1(&b, i)"])

    def uses(self):
        """A call that is no statement of its own, or that nothing is known of."""
        inner = one(self.calls)
        return one([f"defer {inner}", f"go {inner}", f"func() {{ {inner} }}()", f"_ = func() {{ {inner} }}", "x := gR(i); _ = x", "fn(i)", "s.mA0(i)", "s.mB1(i)", "d.mA0(i)", "(&d).mB1(i)", "i++",
            "ch <- i", "{ panic := fn; panic(i) }", "{ fA0 := fn; fA0(i) }", "defer panic(i)", "defer func() { _ = recover() }()", "defer os.Exit(1)", "go os.Exit(1)", "_ = gR(i)",
            "a.fn(i)", "fs[0](i)", "var _ = gR(i)", "{ f := a.mA0; f(i) }", "gR(i)"])

    def jump(self, loops, breaks):
        ways = ["return" if self.returns == 0 else "return 1"] * 3
        ways += ["break"] * 3 * bool(breaks) + ["continue"] * 3 * bool(loops)
        ways += [f"break {name}" for name in self.labels for _ in range(2)] + [f"continue {name}" for name in self.labels if name.startswith("loop") for _ in range(2)]
        if chance(0.25):
            return f"goto to{random.randint(0, 2)}"
        return one(ways)

    def block(self, depth, loops, breaks):
        return "{ " + "; ".join(self.statement(depth - 1, loops, breaks) for _ in range(random.randint(0, 3))) + " }"

    def clauses(self, depth, loops, heads, last, falls):
        text = []
        for i, head in enumerate(heads):
            body = [self.statement(depth - 1, loops, True) for _ in range(random.randint(0, 2))]
            if falls and i + 1 < len(heads) and chance(0.25):
                body.append("fallthrough")
            elif chance(last):
                body.append(self.call() if chance(0.6) else self.jump(loops, True))
            text.append(head + ": " + "; ".join(body))
        return "{ " + "; ".join(text) + " }" if text else "{}"

    def compound(self, depth, loops, breaks, label):
        """A statement that may have a label of its own, which a jump in it may name."""
        kind = one(["for", "for", "range", "switch", "switch", "type", "select", "select"])
        named = f"{'loop' if kind in ('for', 'range') else 'out'}{self.count}" if label else ""
        self.count += bool(label)
        if label:
            self.labels.append(named)
        last = one([0.3, 0.9, 1])
        if kind == "for":
            head = one(["", "", "", "c", "true", "i := 0; i < 3; i++", f";; {one(self.calls)}", f"{one(self.calls)}; ;", f"; c; {one(self.calls)}"])
            text = f"for {head} " + self.block(depth, True, True)
        elif kind == "range":
            text = "for range xs " + self.block(depth, True, True)
        elif kind == "switch":
            heads = [f"case {n}" for n in range(random.randint(0, 3))]
            if chance(0.6):
                heads.insert(random.randint(0, len(heads)), "default")
            text = "switch " + one(["i ", "i ", f"{one(self.calls)}; i "]) + self.clauses(depth, loops, heads, last, True)
        elif kind == "type":
            heads = ["case int", "case string, A", "case nil"][: random.randint(0, 3)]
            if chance(0.6):
                heads.insert(random.randint(0, len(heads)), "default")
            text = "switch v.(type) " + self.clauses(depth, loops, heads, last, False)
        else:
            heads = ["case <-ch", "case ch <- 1", "case i = <-ch"][: random.randint(0, 3)]
            if chance(0.3):
                heads.insert(random.randint(0, len(heads)), "default")
            text = "select " + self.clauses(depth, loops, heads, last, False)
        if not label:
            return text
        self.labels.pop()
        # a label that nothing names is refused
        return f"{named}: {text}" if f" {named}" in text else text

    def statement(self, depth, loops, breaks):
        kind = random.random()
        if depth <= 0 or kind < 0.3:
            return self.call()
        if kind < 0.42:
            return self.uses()
        if kind < 0.52:
            return self.jump(loops, breaks)
        if kind < 0.6:
            return self.block(depth, loops, breaks)
        if kind < 0.78:
            first = one(["", "", "", one(self.calls) + "; "])
            text = f"if {first}c " + self.block(depth, loops, breaks)
            if chance(0.6):
                text += " else " + one([self.block(depth, loops, breaks), "if c " + self.block(depth, loops, breaks) + " else " + self.block(depth, loops, breaks)])
            return text
        return self.compound(depth, loops, breaks, chance(0.4))

    def text(self):
        lines = [self.statement(3, False, False) for _ in range(random.randint(1, 4))]
        lines = [line if "x := gR(i)" not in line or line.startswith("{") else "{ " + line + " }" for line in lines]
        lines = [line if not line.startswith("var ") else "{ " + line + " }" for line in lines]
        for name in ("to0", "to1", "to2"):
            if any(f"goto {name}" in line for line in lines):
                lines.insert(random.randint(0, len(lines)), f"{name}: {one(['i--', self.call(), 'for { i++ }', 'select {}'])}")
        if self.returns:
            lines.append(one(["return 1", "panic(i)", "for { }", "return i", "select {}"]))
        return "{ " + "\n\t".join(lines) + " }"


def package(number, before):
    """Two files of a package that imports these before it."""
    functions = [f"fA{i}" for i in range(5)] + [f"fB{i}" for i in range(5)]
    calls = [f"{name}(i)" for name in functions]
    methods = [f"m{letter}{i}" for letter in "AB" for i in range(2)]
    calls += [f"{of}.{method}(i)" for of in ("a", "b", "pa", "(&b)", "e", "o", "na", "g") for method in methods] + ["e.own(i)", "(&o).own(i)"]
    calls += ["o.M0(i)", "o.M0(i)"] * bool(before)
    texts = []
    for letter in "AB":
        imported = [f"q{p}" for p in before]
        theirs = [f"{q}.F{i}(i)" for q in imported for i in range(3)] * 3 + [f"{q}.V.M0(i)" for q in imported] * 2 + [f"{q}.{name}(i)" for q in imported for name in ("F3",)]
        text = f"package p{number}\n\nimport (\n\t\"log\"\n\t\"os\"\n\t\"runtime\"\n\t\"syscall\"\n\t\"testing\"\n"
        text += "".join(f'\tq{p} "m/p{p}"\n' for p in before) + ")\n\n"
        text += "var _ = log.Print\nvar _ = os.Exit\nvar _ = runtime.GC\nvar _ = syscall.Exit\nvar _ testing.T\n" + "".join(f"var _ = q{p}.F0\n" for p in before)
        if letter == "A":
            text += f"type A struct {{ fn func(int); n int }}\ntype B struct {{ *A; k int }}\ntype E struct {{ B }}\ntype S interface {{ mA0(int); mB1(int) }}\ntype D struct {{ S }}\ntype N = A\ntype G struct {{ *N }}\ntype O struct {{ E; "
            text += (f"q{before[0]}.O2; " if before else "") + "z int }\ntype O2 struct { n int }\nvar V O2\n"
            text += "var (\n\tc bool\n\ta A\n\tpa *A\n\tb B\n\te E\n\to O\n\td D\n\tna N\n\tg *G\n\ts S\n\tfn func(int)\n\tfs []func(int)\n\tch chan int\n\txs []int\n\tv interface{}\n\ttt testing.T\n)\n"
            text += f"func (E) own(i int) {Body(calls + theirs, 0).text()}\n"
            text += f"func ({one(['', '*'])}O2) M0(i int) {Body(calls + theirs, 0).text()}\n"
            text += f"func gR(i int) int {Body(calls + theirs, 1).text()}\n"
            text += f"func init() {Body(calls + theirs, 0).text().replace('(i)', '(1)').replace('{ ', '{ i := 1; _ = i; ', 1)}\n"
            text += f"func _(i int) {Body(calls + theirs, 0).text()}\n"
            for i in range(4):
                text += f"func F{i}(i int) {one([Body(calls + theirs, 0).text(), '{ ' + one(functions) + '(i) }', '{ ' + one(theirs or calls) + ' }'])}\n"
        for i in range(5):
            few = random.sample(calls, 4) + random.sample(theirs, min(3, len(theirs)))
            text += f"func f{letter}{i}(i int) {one([Body(few, 0).text(), Body(few, 0).text(), '{ if c { ' + one(few) + ' }; ' + one(few) + ' }'])}\n"
        for i in range(2):
            text += f"func ({one(['r ', '_ ', ''])}{'' if (letter, i) == ('A', 0) else one(['', '*'])}A) m{letter}{i}(i int) {Body(random.sample(calls, 5) + theirs[:3], 0).text()}\n"
        texts.append(text)
    return texts


def tree(seed):
    random.seed(seed)
    files = {"go.mod": "module m\n"}
    files.update({f"std/{name}/{name}.go": f"package {name}\n{text}" for name, text in {**STUBS, **BODIES}.items()})
    for number in range(40):
        before = sorted(random.sample(range(number), min(number, random.randint(0, 3))))
        first, second = package(number, before)
        files[f"p{number}/a.go"], files[f"p{number}/b.go"] = first, second
    return files
