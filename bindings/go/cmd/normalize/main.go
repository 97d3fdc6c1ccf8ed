// Command normalize writes the canonical form of a manifest from standard input to standard output. If there is none, it writes the
// violations of the schema, or the error, to standard error.
package main

import (
	"errors"
	"fmt"
	"io"
	"os"

	"github.com/ciderglen/ciderglen-go"
)

func run() error {
	document, err := io.ReadAll(os.Stdin)
	if err != nil {
		return err
	}
	text, err := ciderglen.Normalize(ciderglen.Manifest, document)
	if errors.Is(err, ciderglen.ErrInvalidDocument) {
		violations, _ := ciderglen.Violations(ciderglen.Manifest, document)
		for _, violation := range violations {
			fmt.Fprintln(os.Stderr, violation)
		}
	}
	if err != nil {
		return err
	}
	_, err = os.Stdout.Write(text)
	return err
}

func main() {
	if err := run(); err != nil {
		fmt.Fprintln(os.Stderr, err)
		os.Exit(1)
	}
}
