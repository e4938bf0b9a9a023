#!/usr/bin/env python3
"""Makes a package of declarations without bodies, for measures: tools/speed/declarations.py COUNT OUT

COUNT is rounded up to whole files of 6,000: structs, interfaces, methods, functions, variables and arrays, which mention one another near and far."""
import pathlib
import random
import sys

GROUP = """type S{k} struct {{
	next        *S{before}
	name        string
	count, size int
	kids        []T{near}
	by          map[string]*S{k}
}}

type T{k} interface {{
	Name() string
	Sum(a, b int) (int, error)
}}

func (s *S{k}) Name() string

func Make{k}(a int, b *S{far}, c ...string) (T{k}, error)

var V{k} map[K{k}][]func(x S{k}) T{k}

type K{k} [{length}]int
"""


def main():
    if len(sys.argv) != 3:
        sys.exit(__doc__)
    count, out = int(sys.argv[1]), pathlib.Path(sys.argv[2])
    random.seed(5)
    (out / "p").mkdir(parents=True)
    (out / "go.mod").write_text("module m\n\ngo 1.17\n")
    for file in range((count + 5999) // 6000):
        groups = ["package p\n"]
        for k in range(file * 1000, file * 1000 + 1000):
            before, near, far = max(0, k - random.randint(0, 50)), random.randint(max(0, k - 100), k), random.randint(0, k)
            groups.append(GROUP.format(k=k, before=before, near=near, far=far, length=random.randint(1, 9)))
        (out / f"p/f{file}.go").write_text("\n".join(groups))


if __name__ == "__main__":
    main()
