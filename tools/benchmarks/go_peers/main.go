// Command go_peers makes a call of Go's own packages so often as is asked: go_peers CALL FILE COUNT. The calls manifest, index, config,
// layout, spec, features and tags read and print a document by encoding/json and the types of image-spec, runtime-spec and runc;
// reference parses one by the package reference of docker/distribution.
package main

import (
	_ "crypto/sha256"
	"encoding/json"
	"fmt"
	"os"
	"strconv"

	"github.com/docker/distribution/reference"
	image "github.com/opencontainers/image-spec/specs-go/v1"
	"github.com/opencontainers/runc/types/features"
	runtime "github.com/opencontainers/runtime-spec/specs-go"
)

// The image-spec has no type for a registry's list of tags.
type tagList struct {
	Name string   `json:"name"`
	Tags []string `json:"tags"`
}

func printed(document any, input []byte) error {
	if err := json.Unmarshal(input, document); err != nil {
		return err
	}
	_, err := json.Marshal(document)
	return err
}

func call(name string, input []byte, text string) error {
	switch name {
	case "manifest":
		return printed(new(image.Manifest), input)
	case "index":
		return printed(new(image.Index), input)
	case "config":
		return printed(new(image.Image), input)
	case "layout":
		return printed(new(image.ImageLayout), input)
	case "spec":
		return printed(new(runtime.Spec), input)
	case "features":
		return printed(new(features.Features), input)
	case "tags":
		return printed(new(tagList), input)
	default:
		_, err := reference.Parse(text)
		return err
	}
}

func run(name, path, count string) error {
	input, err := os.ReadFile(path)
	if err != nil {
		return err
	}
	text := string(input)
	times, err := strconv.Atoi(count)
	for ; err == nil && times > 0; times-- {
		err = call(name, input, text)
	}
	return err
}

func main() {
	if err := run(os.Args[1], os.Args[2], os.Args[3]); err != nil {
		fmt.Fprintln(os.Stderr, err)
		os.Exit(1)
	}
}
