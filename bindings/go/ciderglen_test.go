package ciderglen

import (
	"bytes"
	"errors"
	"fmt"
	"os"
	"path/filepath"
	"reflect"
	"strconv"
	"strings"
	"sync"
	"testing"
)

const layout = `{"x":1, "imageLayoutVersion":"1.0.0"}`

func ExampleNormalize() {
	text, err := Normalize(Layout, []byte(`{"note":null, "imageLayoutVersion":"1.0.0"}`))
	fmt.Println(string(text), err)
	// Output: {"imageLayoutVersion":"1.0.0"} <nil>
}

func ExampleViolations() {
	violations, err := Violations(Layout, []byte(`{"imageLayoutVersion":1}`))
	for _, violation := range violations {
		fmt.Println(violation)
	}
	fmt.Println(err)
	// Output:
	// /imageLayoutVersion: a string
	// <nil>
}

func ExampleParseReference() {
	reference, err := ParseReference("busybox")
	fmt.Println(reference, reference.Repository, err)
	// Output: docker.io/library/busybox:latest library/busybox <nil>
}

// The documents of the folder that CIDERGLEN_GOLDEN names, which tools/test_bindings writes.
func TestGolden(t *testing.T) {
	paths, _ := filepath.Glob(filepath.Join(os.Getenv("CIDERGLEN_GOLDEN"), "*.json"))
	if os.Getenv("CIDERGLEN_GOLDEN") == "" || len(paths) == 0 {
		t.Skip("CIDERGLEN_GOLDEN names no folder with documents")
	}
	for _, path := range paths {
		base := strings.TrimSuffix(path, ".json")
		number, err := strconv.Atoi(strings.TrimPrefix(filepath.Ext(base), "."))
		if err != nil {
			t.Fatal(err)
		}
		document, err := os.ReadFile(path)
		if err != nil {
			t.Fatal(err)
		}
		text, err := Normalize(Kind(number), document)
		expected, missing := os.ReadFile(base + ".expected")
		switch {
		case missing != nil:
			if err != ErrInvalidDocument && err != ErrInvalidJSON {
				t.Errorf("%s: %v", path, err)
			}
		case err != nil || !bytes.Equal(text, expected):
			t.Errorf("%s: %s, %v", path, text, err)
		default:
			if found, err := Violations(Kind(number), document); len(found) != 0 || err != nil {
				t.Errorf("%s: %v, %v", path, found, err)
			}
		}
	}
}

func TestErrors(t *testing.T) {
	for _, it := range []struct {
		kind     Kind
		document string
		expected Error
	}{
		{Layout, "", ErrInvalidJSON},
		{Layout, "{", ErrInvalidJSON},
		{Layout, "{}", ErrInvalidDocument},
		{14, "{}", ErrUnknownKind},
	} {
		if _, err := Normalize(it.kind, []byte(it.document)); !errors.Is(err, it.expected) {
			t.Errorf("Normalize(%d, %q): %v", it.kind, it.document, err)
		}
		if _, err := Pretty(it.kind, []byte(it.document)); !errors.Is(err, it.expected) {
			t.Errorf("Pretty(%d, %q): %v", it.kind, it.document, err)
		}
	}
	if _, err := Normalize(Layout, nil); err != ErrInvalidJSON {
		t.Error(err)
	}
	if text := Error(99).Error(); text != "ciderglen: status 99" {
		t.Error(text)
	}
}

// A name with a newline, an escape sequence, a NUL and U+202E is raw in a violation, and escaped where it is shown.
func TestViolations(t *testing.T) {
	hostile := "{\"schemaVersion\":2,\"manifests\":[],\"annotations\":{\"a\\n\\u001b[2J\\u0000\u009b\u202e\u2028\\\\\\\"é\":1,\"c~/\":1}}"
	expected := []Violation{
		{"/annotations/a\n\x1b[2J\x00\u009b\u202e\u2028\\\"é", "a string"},
		{"/annotations/c~0~1", "a string"},
	}
	found, err := Violations(Index, []byte(hostile))
	if err != nil || !reflect.DeepEqual(found, expected) {
		t.Fatalf("%q, %v", found, err)
	}
	for i, line := range []string{`/annotations/a\n\x1b[2J\x00\u009b\u202e\u2028\\"é: a string`, "/annotations/c~0~1: a string"} {
		if text := found[i].String(); text != line {
			t.Errorf("%q", text)
		}
	}
	expected = []Violation{{"/imageLayoutVersion", "required member is missing (a string)"}}
	if found, err = Violations(Layout, []byte("{}")); err != nil || !reflect.DeepEqual(found, expected) {
		t.Errorf("%q, %v", found, err)
	}
	if found, err = Violations(Layout, nil); found != nil || err != ErrInvalidJSON {
		t.Errorf("%q, %v", found, err)
	}
	if found, err = Violations(14, []byte("{}")); found != nil || err != ErrUnknownKind {
		t.Errorf("%q, %v", found, err)
	}
}

func TestBrokenRules(t *testing.T) {
	document := []byte(`{"imageLayoutVersion":"1.0.1"}`)
	expected := []BrokenRule{{"/imageLayoutVersion", "layout-version", "stated", "image image-layout.md#oci-layout-file", "1.0.0"}}
	found, err := BrokenRules(Layout, Stated, OfDocument, document)
	if err != nil || !reflect.DeepEqual(found, expected) {
		t.Fatalf("%q, %v", found, err)
	}
	if text := found[0].String(); text != "/imageLayoutVersion: layout-version (stated, image image-layout.md#oci-layout-file): 1.0.0" {
		t.Errorf("%q", text)
	}
	if text := (BrokenRule{"/\n", "\x1b", "must", "\x00", "\u202e"}).String(); text != `/\n: \x1b (must, \x00): \u202e` {
		t.Errorf("%q", text)
	}
	if found, err = BrokenRules(Layout, Must, Linux, document); len(found) != 0 || err != nil {
		t.Errorf("%q, %v", found, err)
	}
	for _, it := range []struct {
		kind     Kind
		level    Level
		platform Platform
		document string
		expected Error
	}{
		{Layout, Host, OfDocument, "{", ErrInvalidJSON},
		{14, Must, OfDocument, "{}", ErrUnknownKind},
		{Layout, 4, OfDocument, "{}", ErrUnknownLevel},
		{Layout, Must, 7, "{}", ErrUnknownPlatform},
	} {
		if found, err := BrokenRules(it.kind, it.level, it.platform, []byte(it.document)); len(found) != 0 || err != it.expected {
			t.Errorf("BrokenRules(%d, %d, %d, %q): %q, %v", it.kind, it.level, it.platform, it.document, found, err)
		}
	}
}

// The digest of FIPS 180-4's example abc.
func TestVerify(t *testing.T) {
	digest := "sha256:ba7816bf8f01cfea414140de5dae2223b00361a396177a9cb410ff61f20015ad"
	if err := Verify(digest, 3, []byte("abc")); err != nil {
		t.Error(err)
	}
	for _, it := range []struct {
		digest   string
		size     uint64
		content  string
		expected Error
	}{
		{digest, 4, "abc", ErrOtherSize},
		{digest, 3, "abd", ErrOtherDigest},
		{"md5:900150983cd24fb0", 3, "abc", ErrUnknownAlgorithm},
		{"sha256:abc", 3, "abc", ErrInvalidDigest},
		{"\xff", 3, "abc", ErrInvalidUTF8},
	} {
		if err := Verify(it.digest, it.size, []byte(it.content)); err != it.expected {
			t.Errorf("Verify(%q, %d, %q): %v", it.digest, it.size, it.content, err)
		}
	}
}

func TestReferences(t *testing.T) {
	digest := "sha256:" + strings.Repeat("0", 64)
	reference, err := ParseReference("test:5000/team/app:v1@" + digest)
	if err != nil || reference.Registry != "test:5000" || reference.Repository != "team/app" || reference.Tag != "v1" || reference.Digest != digest {
		t.Errorf("%+v, %v", reference, err)
	}
	if reference, err = ParseReference("busybox@" + digest); err != nil || reference.Tag != "" || reference.Digest != digest {
		t.Errorf("%+v, %v", reference, err)
	}
	for text, expected := range map[string]Error{"": ErrNameEmpty, "Uppercase/repo": ErrNameContainsUppercase, "a:": ErrReferenceInvalidFormat, "\xff": ErrInvalidUTF8} {
		if _, err := ParseReference(text); err != expected {
			t.Errorf("%q: %v", text, err)
		}
		if _, err := ResolveRegistry(text); err != expected {
			t.Errorf("%q: %v", text, err)
		}
	}
	if registry, err := ResolveRegistry("busybox"); registry != "index.docker.io" || err != nil {
		t.Error(registry, err)
	}
	if text, err := Pin("busybox:1", []byte(`{"mediaType":"a/b","size":1,"digest":"x:y"}`)); text != "docker.io/library/busybox@x:y" || err != nil {
		t.Error(text, err)
	}
	if _, err := Pin("busybox", nil); err != ErrInvalidJSON {
		t.Error(err)
	}
	if err := CheckDigest("foo:bar"); err != nil {
		t.Error(err)
	}
	if err := CheckDigest(""); err != ErrInvalidDigest {
		t.Error(err)
	}
}

func TestGoroutines(t *testing.T) {
	var all sync.WaitGroup
	for i := 0; i < 64; i++ {
		all.Add(1)
		go func() {
			defer all.Done()
			for j := 0; j < 100; j++ {
				if text, err := Normalize(Layout, []byte(layout)); err != nil || string(text) != `{"imageLayoutVersion":"1.0.0"}` {
					t.Error(string(text), err)
				}
			}
		}()
	}
	all.Wait()
}

func BenchmarkNormalize(b *testing.B) {
	for i := 0; i < b.N; i++ {
		if _, err := Normalize(Layout, []byte(layout)); err != nil {
			b.Fatal(err)
		}
	}
}
