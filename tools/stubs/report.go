package main

import (
	"errors"
	"fmt"
	"os"
	"os/exec"
	"path"
	"path/filepath"
	"regexp"
	"sort"
	"strings"
)

// The folder that is made in a module's, and left out by git.
const folder = ".gvet"

// report makes the tree of a module and reports on it. Where a package that Go accepts is refused, as it lies outside gvet's profile, and
// another is blocked by it, its errors are kept, it has a stub in its place, and the report is made anew.
func report(gvet, dir string, words []string) (int, error) {
	out := filepath.Join(dir, folder, "tree")
	m, err := open(dir, out)
	if err != nil {
		return failed, err
	}
	kept := m.tooLong()
	for {
		if err := m.lay(); err != nil {
			return failed, err
		}
		reply, status, err := run(gvet, out, words)
		if err != nil || status > 1 {
			return status, err
		}
		text := reply
		if isJSON(words) {
			if text, _, err = run(gvet, out, without(words)); err != nil {
				return failed, err
			}
		}
		lines := strings.Split(text, "\n")
		if more := m.replace(lines); len(more) > 0 {
			kept = append(kept, m.linesOf(lines, more)...)
			continue
		}
		if len(kept) > 0 {
			status = 1
		}
		return status, m.tell(dir, kept, reply, isJSON(words))
	}
}

// run calls gvet in a folder.
func run(gvet, dir string, words []string) (string, int, error) {
	command := exec.Command(gvet, append([]string{"report"}, words...)...)
	command.Dir = dir
	command.Stderr = os.Stderr
	reply, err := command.Output()
	var ended *exec.ExitError
	if errors.As(err, &ended) {
		return string(reply), ended.ExitCode(), nil
	}
	if err != nil {
		return "", failed, fmt.Errorf("gvet doesn't run: %v", err)
	}
	return string(reply), 0, nil
}

func isJSON(words []string) bool { return len(without(words)) < len(words) }

func without(words []string) []string {
	var list []string
	for _, word := range words {
		if word != "--json" {
			list = append(list, word)
		}
	}
	return list
}

// tooLong has stubs stand for the packages with a file that is longer than gvet takes, as it would then take none.
func (m *goModule) tooLong() []string {
	var told []string
	for _, u := range m.own {
		for _, name := range u.GoFiles {
			if info, err := os.Stat(filepath.Join(u.Dir, name)); err == nil && info.Size() > 4194304 {
				told = append(told, path.Join(m.folder(u), name)+":1:1: limit: file bytes")
				m.instead[u] = true
			}
		}
	}
	return told
}

var place = regexp.MustCompile(`^([^ :]+\.go):(\d+):\d+: `)

// of is the folder of the file that a line speaks of.
func of(line string) string {
	if found := place.FindStringSubmatch(line); found != nil {
		return path.Dir(found[1])
	}
	return ""
}

// replace takes a stub for each package that Go accepts, that gvet refuses by lines of its own, and by which another is blocked.
func (m *goModule) replace(lines []string) map[string]bool {
	blocking, told := map[string]bool{}, map[string]bool{}
	for _, line := range lines {
		if i := strings.Index(line, ": blocked by "); i >= 0 {
			blocking[line[i+len(": blocked by "):]] = true
		}
		told[of(line)] = true
	}
	var found []*unit
	for _, u := range m.own {
		if blocking[u.path()] && told[m.folder(u)] && !m.instead[u] {
			m.instead[u] = true
			found = append(found, u)
		}
	}
	more := map[string]bool{}
	known := len(found) > 0 && m.knows(m.asks()) // as they were when Go was asked
	for _, u := range found {
		if known || m.accepts(u) {
			more[m.folder(u)] = true
		} else {
			delete(m.instead, u)
		}
	}
	return more
}

// accepts tells whether Go accepts a package.
func (m *goModule) accepts(u *unit) bool {
	m.writer()
	return len(u.wrong) == 0
}

func (m *goModule) linesOf(lines []string, folders map[string]bool) []string {
	var kept []string
	for _, line := range lines {
		if folders[of(line)] {
			kept = append(kept, line)
		}
	}
	return kept
}

// tell prints the reply with the paths of the module as it was given, and behind an error what it is about where a stub says so.
func (m *goModule) tell(dir string, kept []string, reply string, json bool) error {
	shown := ""
	if dir = filepath.ToSlash(filepath.Clean(dir)); dir != "." {
		shown = dir + "/"
	}
	told := strings.Split(strings.TrimSuffix(reply, "\n"), "\n")
	used, err := m.used(append(kept, told...))
	if err != nil {
		return err
	}
	print := func(out *os.File, line string) {
		found := place.FindStringSubmatch(line)
		if found == nil {
			fmt.Fprintln(out, line)
			return
		}
		if why := used[found[1]+":"+found[2]]; why != "" && isError.MatchString(line) {
			line += " (outside profile: " + why + ")"
		}
		fmt.Fprintln(out, shown+strings.ReplaceAll(line, " also at ", " also at "+shown))
	}
	out := os.Stdout
	if json {
		out = os.Stderr
		reply = strings.ReplaceAll(reply, `"posn":"`, `"posn":"`+shown)
		told = []string{strings.ReplaceAll(strings.TrimSuffix(reply, "\n"), `"posn":"`+shown+`"`, `"posn":""`)}
	}
	sort.SliceStable(kept, func(i, k int) bool { return of(kept[i]) < of(kept[k]) })
	for _, line := range kept {
		print(out, line)
	}
	for _, line := range told {
		print(os.Stdout, line)
	}
	m.sum(len(kept))
	return nil
}

var isError = regexp.MustCompile(`(?m)^[^ ]+ E[0-9]+ `)

// used has the uses of what stubs leave out, by path and line. They are looked for where there is an error alone.
func (m *goModule) used(told []string) (map[string]string, error) {
	used := map[string]string{}
	if !isError.MatchString(strings.Join(told, "\n")) {
		return used, nil
	}
	uses, err := m.uses()
	for _, line := range uses {
		found := place.FindStringSubmatch(line)
		if at := found[1] + ":" + found[2]; used[at] == "" {
			used[at] = line[len(found[0]):]
		}
	}
	return used, err
}

// sum says on standard error what the reply doesn't show.
func (m *goModule) sum(kept int) {
	var names []string
	for _, u := range m.own {
		if m.instead[u] {
			names = append(names, u.path())
		}
	}
	if len(names) > 0 {
		fmt.Fprintf(os.Stderr, "stubs: %d more errors, of packages that have a stub in their place as they lie outside the profile: %s\n", kept, strings.Join(names, " "))
	}
	for _, line := range m.skipped {
		fmt.Fprintln(os.Stderr, "stubs: not looked at: "+line)
	}
}
