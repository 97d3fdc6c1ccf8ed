// Lists archives as archive/tar reads them: a line of JSON for each file that is named.
package main

import (
	"archive/tar"
	"encoding/hex"
	"encoding/json"
	"io"
	"os"
	"strconv"
)

type listing struct {
	Entries [][]string `json:"entries"`
	End     string     `json:"end"`
}

func list(name string) listing {
	found := listing{[][]string{}, "end"}
	file, err := os.Open(name)
	if err != nil {
		return listing{found.Entries, err.Error()}
	}
	defer file.Close()
	reader := tar.NewReader(file)
	for {
		header, err := reader.Next()
		if err == io.EOF {
			return found
		}
		if err != nil {
			found.End = err.Error()
			return found
		}
		if header.Typeflag == tar.TypeXGlobalHeader {
			continue
		}
		size := strconv.FormatInt(header.Size, 10)
		found.Entries = append(found.Entries, []string{string(rune(header.Typeflag)), size, hex.EncodeToString([]byte(header.Name)), hex.EncodeToString([]byte(header.Linkname))})
	}
}

func main() {
	out := json.NewEncoder(os.Stdout)
	for _, name := range os.Args[1:] {
		out.Encode(list(name))
	}
}
