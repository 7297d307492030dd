package ndef

import (
	"bytes"
	"os"
	"os/exec"
	"path/filepath"
	"strings"
	"testing"
)

// copiedModule copies the files of the module to a folder of their own, as a module zip has them: no links, and nothing from
// outside of the folder.
func copiedModule(t *testing.T) string {
	folder := t.TempDir()
	files, err := os.ReadDir(".")
	if err != nil {
		t.Fatal(err)
	}
	for _, file := range files {
		if !file.Type().IsRegular() || strings.HasSuffix(file.Name(), "_test.go") {
			continue
		}
		text, err := os.ReadFile(file.Name())
		if err == nil {
			err = os.WriteFile(filepath.Join(folder, file.Name()), text, 0o666)
		}
		if err != nil {
			t.Fatal(err)
		}
	}
	return folder
}

// run runs the command go in a folder, and returns what it prints.
func run(folder string, words ...string) (string, error) {
	command := exec.Command("go", words...)
	command.Dir = folder
	command.Env = append(os.Environ(), "GOFLAGS=", "CGO_CFLAGS=-O0")
	said, err := command.CombinedOutput()
	return string(said), err
}

// A program in another module builds of the vendored package, and of one whose ndef.c has changed it is built again.
func TestModuleIsWhole(t *testing.T) {
	if testing.Short() {
		t.Skip("it compiles the library")
	}
	module, program := copiedModule(t), t.TempDir()
	source := "package main\n\nimport (\n\t\"fmt\"\n\t\"simbegyor/ndef\"\n)\n\nfunc main() { fmt.Println(ndef.Parse([]byte{0xD0, 0, 0})) }\n"
	if err := os.WriteFile(filepath.Join(program, "main.go"), []byte(source), 0o666); err != nil {
		t.Fatal(err)
	}
	for _, words := range [][]string{{"mod", "init", "program"},
		{"mod", "edit", "-require", "simbegyor/ndef@v0.0.0", "-replace", "simbegyor/ndef=" + module}, {"mod", "vendor"}} {
		if said, err := run(program, words...); err != nil {
			t.Fatalf("go %q: %s%v", words, said, err)
		}
	}
	for _, mode := range []string{"-mod=vendor", "-mod=mod"} {
		if said, err := run(program, "run", mode, "."); err != nil || said != "&{[{empty   []}]} <nil>\n" {
			t.Fatalf("%s: %s%v", mode, said, err)
		}
	}
	changed := filepath.Join(module, "ndef.c")
	text, err := os.ReadFile(changed)
	if err == nil {
		err = os.WriteFile(changed, bytes.Replace(text, []byte("#include"), []byte("#error changed\n#include"), 1), 0o666)
	}
	if err != nil {
		t.Fatal(err)
	}
	if said, err := run(program, "run", "-mod=mod", "."); err == nil || !strings.Contains(said, "changed") {
		t.Fatalf("the old library is run: %s%v", said, err)
	}
}
