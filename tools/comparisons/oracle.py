"""runtime-tools' validator over documents: its own checks of one document, without the one that asks the network for a schema."""
import json
import os
import re
import subprocess

from comparisons.runtime_cases import PACKAGE

MAIN = """package main

import (
	"bufio"
	"encoding/json"
	"fmt"
	"os"

	"github.com/hashicorp/go-multierror"
	rspec "github.com/opencontainers/runtime-spec/specs-go"
	"github.com/opencontainers/runtime-tools/specerror"
	"github.com/opencontainers/runtime-tools/validate"
	"github.com/sirupsen/logrus"
)

func names(err error) (out []string) {
	switch it := err.(type) {
	case nil:
	case *multierror.Error:
		for _, one := range it.Errors {
			out = append(out, names(one)...)
		}
	case *specerror.Error:
		out = append(out, fmt.Sprintf("code %d", int64(it.Code)))
	default:
		out = append(out, it.Error())
	}
	return out
}

func check(line []byte, platform string) (out []string) {
	defer func() {
		if it := recover(); it != nil {
			out = []string{"panic"}
		}
	}()
	var spec rspec.Spec
	if err := json.Unmarshal(line, &spec); err != nil {
		return []string{"unread"}
	}
	v, err := validate.NewValidator(&spec, "/nonexistent", false, platform)
	if err != nil {
		panic(err)
	}
	out = names(v.CheckPlatform())
	out = append(out, names(v.CheckRoot())...)
	out = append(out, names(v.CheckMandatoryFields())...)
	out = append(out, names(v.CheckSemVer())...)
	out = append(out, names(v.CheckMounts())...)
	out = append(out, names(v.CheckProcess())...)
	out = append(out, names(v.CheckLinux())...)
	out = append(out, names(v.CheckAnnotations())...)
	if platform == "linux" || platform == "solaris" {
		out = append(out, names(v.CheckHooks())...)
	}
	return out
}

func main() {
	logrus.SetLevel(logrus.ErrorLevel)
	in := bufio.NewScanner(os.Stdin)
	in.Buffer(make([]byte, 1<<20), 1<<26)
	for in.Scan() {
		answer, err := json.Marshal(check(in.Bytes(), os.Args[1]))
		if err != nil {
			panic(err)
		}
		fmt.Println(string(answer))
	}
}
"""
# what the validator says without a code, and the rule
SAID = [
    (r"'Spec\.Version' should not be empty", "spec-version"),
    (r"'Root\.Path' should not be empty", "root-path-there"),
    (r"env .* for hook .* is in the invalid form", "hook-env"),
    (r"env .* should be in the form of 'key=value'", "process-env-name"),
    (r'capability ".*" is not valid', "capability-spelling"),
    (r"effective capability", "capability-effective-permitted"),
    (r"ambient capability", "capability-ambient"),
    (r"hard limit of rlimit", "rlimit-soft-at-most-hard"),
    (r"the UID/GID mappings requires", "mapping-needs-user"),
    (r"sysctl net\.", "sysctl-network"),
    (r"sysctl fs\.mqueue\.", "sysctl-ipc"),
    (r"on Linux, hostname requires", "hostname-needs-uts"),
    (r"device .* is duplicated", "device-path-once"),
    (r"minimum memoryswap", "memory-limit-at-most-swap"),
    (r"type of devices", "cgroup-device-type"),
    (r"access .* is invalid", "cgroup-device-access"),
]


def answers(room, documents, platform, names):
    """What the validator finds in each document: rules by the names of this project, where it decides one, and the rest as it is."""
    folder = os.path.join(room, "go/src", PACKAGE, "oracle")
    os.makedirs(folder, exist_ok=True)
    with open(os.path.join(folder, "main.go"), "w", encoding="utf-8") as file:
        file.write(MAIN)
    environment = dict(os.environ, GO111MODULE="off", GOPATH=f"{room}/go:/usr/share/gocode", GOFLAGS="")
    built = subprocess.run(["go", "build", "-o", f"{room}/oracle", "./oracle"], cwd=os.path.dirname(folder), env=environment, capture_output=True, text=True, check=False)
    if built.returncode:
        raise SystemExit(built.stderr)
    lines = "".join(json.dumps(it) + "\n" for it in documents)
    done = subprocess.run([f"{room}/oracle", platform], input=lines, capture_output=True, text=True, check=False)
    if done.returncode:
        raise SystemExit(done.stderr[-2000:])
    return [[told(it, names) for it in json.loads(line) or []] for line in done.stdout.splitlines()]


def told(text, names):
    """The rule of this project that an answer is about, or the answer."""
    if text.startswith("code "):
        return names.get(text[5:], text)
    return next((rule for pattern, rule in SAID if re.search(pattern, text)), text)
