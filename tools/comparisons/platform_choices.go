// Chooses among manifests as containerd does (images.Manifest): for each line `WANTED PLATFORM ..` of standard input, with `-` for a manifest
// that states no platform, the place of the first of those whose platform is the best one that runs there, or `none`.
package main

import (
	"bufio"
	"fmt"
	"os"
	"sort"
	"strings"

	"github.com/containerd/containerd/platforms"
	specs "github.com/opencontainers/image-spec/specs-go/v1"
)

type manifest struct {
	place    int
	platform specs.Platform
}

func platform(text string) specs.Platform {
	parts := strings.Split(text, "/")
	found := specs.Platform{OS: parts[0], Architecture: parts[1]}
	if len(parts) == 3 {
		found.Variant = parts[2]
	}
	return found
}

func chosen(words []string) string {
	runs := platforms.Only(platform(words[0]))
	var fitting []manifest
	for place, text := range words[1:] {
		if text == "-" {
			continue
		}
		if stated := platform(text); runs.Match(stated) {
			fitting = append(fitting, manifest{place, stated})
		}
	}
	sort.SliceStable(fitting, func(i, j int) bool {
		return runs.Less(fitting[i].platform, fitting[j].platform)
	})
	if len(fitting) == 0 {
		return "none"
	}
	return fmt.Sprint(fitting[0].place)
}

func main() {
	lines := bufio.NewScanner(os.Stdin)
	lines.Buffer(nil, 1<<20)
	for lines.Scan() {
		fmt.Println(chosen(strings.Fields(lines.Text())))
	}
}
