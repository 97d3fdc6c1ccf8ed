// Reads gzip files as compress/gzip does: a line of JSON for each file that is named, with the SHA-256 of its text.
package main

import (
	"bufio"
	"compress/gzip"
	"crypto/sha256"
	"encoding/hex"
	"encoding/json"
	"io"
	"os"
)

type reading struct {
	Sum string `json:"sum"`
	End string `json:"end"`
}

func read(name string) reading {
	file, err := os.Open(name)
	if err != nil {
		return reading{"", err.Error()}
	}
	defer file.Close()
	reader, err := gzip.NewReader(bufio.NewReader(file))
	if err != nil {
		return reading{"", err.Error()}
	}
	sum := sha256.New()
	if _, err := io.Copy(sum, reader); err != nil {
		return reading{"", err.Error()}
	}
	return reading{hex.EncodeToString(sum.Sum(nil)), "end"}
}

func main() {
	out := json.NewEncoder(os.Stdout)
	for _, name := range os.Args[1:] {
		if err := out.Encode(read(name)); err != nil {
			panic(err)
		}
	}
}
