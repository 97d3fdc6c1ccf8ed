"""The validation cases of runtime-tools, taken out of its Debian package as JSON.

A line is put before each validator of a copy of the package's test, which writes the document, the platform and the error that is
expected; `go test` then writes all of them. The test of the schema asks the network and fails, and writes its documents all the same.
"""
import json
import os
import re
import shutil
import subprocess

SOURCES = "/usr/share/gocode/src"
PACKAGE = "github.com/opencontainers/runtime-tools"
DUMP = """package validate

import (
	"encoding/json"
	"fmt"
	"os"

	"github.com/opencontainers/runtime-tools/specerror"
)

// dumpCase writes a case as a line of JSON.
func dumpCase(test string, spec interface{}, platform string, expected interface{}) {
	file, err := os.OpenFile(os.Getenv("DUMPED_CASES"), os.O_APPEND|os.O_CREATE|os.O_WRONLY, 0644)
	if err != nil {
		panic(err)
	}
	defer file.Close()
	code, is := expected.(specerror.Code)
	if is && code == specerror.NonError {
		expected = ""
	}
	line, err := json.Marshal(map[string]interface{}{"test": test, "spec": spec, "platform": platform, "expected": fmt.Sprint(expected), "code": is})
	if err != nil {
		panic(err)
	}
	fmt.Fprintln(file, string(line))
}
"""


def marked(text):
    """The test's source with a line before each validator."""
    test = ""
    out = []
    for line in text.split("\n"):
        found = re.match(r"func (Test\w+)", line)
        test = found.group(1) if found else test
        made = re.search(r":= NewValidator\(&?(rspec.Spec\{Version: c.val\}|c.val), [^,]+, false, ([\w.\"]+)\)", line)
        plain = re.search(r"v := &Validator\{spec: tt.config\}", line)
        if made and test != "TestNewValidator":
            out.append(f'\t\tdumpCase("{test}", &{made.group(1)}, {made.group(2)}, c.expected)')
        if plain:
            out.append(f'\t\t\tdumpCase("{test}", tt.config, "linux", tt.error)')
        out.append(line)
    return "\n".join(out)


def codes():
    """The names of runtime-tools' errors, by their numbers."""
    names = []
    for file in ("bundle.go", "config.go", "config-linux.go", "config-windows.go", "runtime.go", "runtime-linux.go", "error.go"):
        with open(f"{SOURCES}/{PACKAGE}/specerror/{file}", encoding="utf-8") as text:
            names += re.findall(r"^\t([A-Z]\w+)(?:\s*=\s*Code\(.*)?$|^\t([A-Z]\w+)(?: Code)? = ", text.read(), re.MULTILINE)
    return sorted({one or two for one, two in names})


def cases(room):
    """All cases: a test's name, the document, the platform, and what is expected: nothing, the name of an error, or its text."""
    top = os.path.join(room, "go")
    here = os.path.join(top, "src", PACKAGE)
    shutil.rmtree(top, ignore_errors=True)
    shutil.copytree(f"{SOURCES}/{PACKAGE}", here)
    path = os.path.join(here, "validate", "validate_test.go")
    with open(path, encoding="utf-8") as file:
        text = file.read()
    with open(path, "w", encoding="utf-8") as file:
        file.write(marked(text))
    with open(os.path.join(here, "validate", "dump_test.go"), "w", encoding="utf-8") as file:
        file.write(DUMP)
    dumped = os.path.join(room, "cases.jsonl")
    if os.path.exists(dumped):
        os.remove(dumped)
    environment = dict(os.environ, GO111MODULE="off", GOPATH=f"{top}:/usr/share/gocode", GOFLAGS="", DUMPED_CASES=dumped)
    subprocess.run(["go", "test", "./validate"], cwd=here, env=environment, capture_output=True, timeout=600, check=False)
    with open(dumped, encoding="utf-8") as file:
        rows = [json.loads(line) for line in file]
    names = code_names(here, environment)
    for row in rows:
        if row["code"] and row["expected"]:
            row["expected"] = names.get(row["expected"], row["expected"])
    return rows


def code_names(here, environment):
    """The names of the errors, by the numbers that Go gives them."""
    folder = os.path.join(here, "names")
    os.makedirs(folder, exist_ok=True)
    lines = "".join(f'\tfmt.Println("{name}", int64(specerror.{name}))\n' for name in codes())
    with open(os.path.join(folder, "main.go"), "w", encoding="utf-8") as file:
        file.write(f'package main\n\nimport (\n\t"fmt"\n\n\t"{PACKAGE}/specerror"\n)\n\nfunc main() {{\n{lines}}}\n')
    done = subprocess.run(["go", "run", "./names"], cwd=here, env=environment, capture_output=True, text=True, check=False)
    if done.returncode:
        raise SystemExit(done.stderr)
    return {line.split()[1]: line.split()[0] for line in done.stdout.split("\n") if line}
