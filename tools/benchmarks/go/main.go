// Command bench makes a call so often as is asked: bench CALL FILE COUNT. The calls manifest, spec, reference and digest are those of
// the package ciderglen; digest_go is that of the package go-digest.
package main

import (
	_ "crypto/sha256"
	"fmt"
	"os"
	"strconv"

	"github.com/ciderglen/ciderglen-go"
	"github.com/opencontainers/go-digest"
)

func call(name string, input []byte, text string) (err error) {
	switch name {
	case "manifest":
		_, err = ciderglen.Normalize(ciderglen.Manifest, input)
	case "spec":
		_, err = ciderglen.Normalize(ciderglen.Spec, input)
	case "reference":
		_, err = ciderglen.ParseReference(text)
	case "digest":
		err = ciderglen.CheckDigest(text)
	default:
		_, err = digest.Parse(text)
	}
	return err
}

func run(name, path, count string) error {
	input, err := os.ReadFile(path)
	if err != nil {
		return err
	}
	text := string(input)
	times, err := strconv.Atoi(count)
	for ; err == nil && times > 0; times-- {
		err = call(name, input, text)
	}
	return err
}

func main() {
	if err := run(os.Args[1], os.Args[2], os.Args[3]); err != nil {
		fmt.Fprintln(os.Stderr, err)
		os.Exit(1)
	}
}
