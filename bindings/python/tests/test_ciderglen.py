"""Tests of the module. CIDERGLEN_GOLDEN names a folder with documents, which tools/test_bindings writes."""
import doctest
import glob
import os
import threading
import unittest

import ciderglen
from ciderglen import BrokenRule, InvalidDocument, InvalidJSON, InvalidReference, Kind, Status, Violation

LAYOUT = b'{"x":1, "imageLayoutVersion":"1.0.0"}'
GOLDEN = os.environ.get("CIDERGLEN_GOLDEN")


def load_tests(_loader, tests, _pattern):
    tests.addTests(doctest.DocTestSuite(ciderglen))
    return tests


def read(path):
    with open(path, "rb") as file:
        return file.read()


class Documents(unittest.TestCase):
    @unittest.skipUnless(GOLDEN, "CIDERGLEN_GOLDEN names no folder")
    def test_golden(self):
        paths = glob.glob(f"{GOLDEN}/*.json")
        self.assertTrue(paths)
        for path in paths:
            base = path[: -len(".json")]
            kind, document = Kind(int(base.rsplit(".", 1)[1])), read(path)
            with self.subTest(path=path):
                if os.path.exists(f"{base}.expected"):
                    self.assertEqual(ciderglen.normalize(kind, document), read(f"{base}.expected"))
                    self.assertEqual(ciderglen.violations(kind, document), [])
                else:
                    self.assertRaises((InvalidDocument, InvalidJSON), ciderglen.normalize, kind, document)

    def test_pretty(self):
        self.assertEqual(ciderglen.normalize_pretty(Kind.LAYOUT, LAYOUT), b'{\n  "imageLayoutVersion": "1.0.0"\n}')

    def test_errors(self):
        for document in (b"", b"{", b"\xff", b"{}\0"):
            self.assertRaises(InvalidJSON, ciderglen.normalize, Kind.LAYOUT, document)
            self.assertRaises(InvalidJSON, ciderglen.violations, Kind.LAYOUT, document)
        self.assertRaises(InvalidDocument, ciderglen.normalize, Kind.LAYOUT, b"{}")
        self.assertRaises(ValueError, ciderglen.normalize, 14, b"{}")

    def test_violations(self):
        expected = [Violation("/imageLayoutVersion", "required member is missing (a string)")]
        self.assertEqual(ciderglen.violations(Kind.LAYOUT, b"{}"), expected)
        # a name with a newline, an escape sequence, a NUL and U+202E is raw in a violation, and escaped where it is shown
        hostile = '{"schemaVersion":2,"manifests":[],"annotations":{"a\\n\\u001b[2J\\u0000\x9b\u202e\u2028\\\\\\"é":1,"c~/":1}}'
        expected = [Violation("/annotations/a\n\x1b[2J\0\x9b\u202e\u2028\\\"é", "a string"), Violation("/annotations/c~0~1", "a string")]
        found = ciderglen.violations(Kind.INDEX, hostile.encode())
        self.assertEqual(found, expected)
        lines = [r"/annotations/a\n\x1b[2J\x00\x9b\u202e\u2028\\" + '"é: a string', "/annotations/c~0~1: a string"]
        self.assertEqual([str(it) for it in found], lines)

    def test_broken_rules(self):
        document = b'{"imageLayoutVersion":"1.0.1"}'
        expected = [BrokenRule("/imageLayoutVersion", "layout-version", "stated", "image image-layout.md#oci-layout-file", "1.0.0")]
        line = "/imageLayoutVersion: layout-version (stated, image image-layout.md#oci-layout-file): 1.0.0"
        self.assertEqual([str(it) for it in expected], [line])
        self.assertEqual(str(BrokenRule("/\n", "\x1b", "must", "\0", "\u202e")), r"/\n: \x1b (must, \x00): \u202e")
        self.assertEqual(ciderglen.broken_rules(Kind.LAYOUT, document), expected)
        self.assertEqual(ciderglen.broken_rules(Kind.LAYOUT, document, ciderglen.Level.MUST), [])
        self.assertEqual(ciderglen.broken_rules(Kind.LAYOUT, document, ciderglen.Level.HOST, ciderglen.Platform.WINDOWS), expected)
        self.assertRaises(InvalidJSON, ciderglen.broken_rules, Kind.LAYOUT, b"{")
        self.assertRaises(ValueError, ciderglen.broken_rules, Kind.LAYOUT, b"{}", 4)
        self.assertRaises(ValueError, ciderglen.broken_rules, Kind.LAYOUT, b"{}", ciderglen.Level.MUST, 7)

    def test_threads(self):
        found = []
        threads = [threading.Thread(target=lambda: found.append(ciderglen.normalize(Kind.LAYOUT, LAYOUT))) for _ in range(8)]
        for thread in threads:
            thread.start()
        for thread in threads:
            thread.join()
        self.assertEqual(found, [b'{"imageLayoutVersion":"1.0.0"}'] * 8)


class References(unittest.TestCase):
    def test_parts(self):
        digest = "sha256:" + "0" * 64
        for text in (f"test:5000/team/app:v1@{digest}", f"test:5000/team/app@{digest}", "test:5000/team/app:v1"):
            self.assertEqual(str(ciderglen.parse_reference(text)), text)
        reference = ciderglen.parse_reference(f"busybox@{digest}")
        self.assertEqual(reference, ("docker.io", "library/busybox", None, digest))

    def test_errors(self):
        for text, status in (
            ("", Status.NAME_EMPTY),
            ("Uppercase/repo", Status.NAME_CONTAINS_UPPERCASE),
            ("a:", Status.REFERENCE_INVALID_FORMAT),
            ("\udc80", Status.INVALID_UTF8),
        ):
            with self.assertRaises(InvalidReference) as caught:
                ciderglen.parse_reference(text)
            self.assertEqual(caught.exception.status, status)

    def test_others(self):
        self.assertEqual(ciderglen.resolve_registry("busybox"), "index.docker.io")
        descriptor = b'{"mediaType":"a/b","size":1,"digest":"x:y"}'
        self.assertEqual(ciderglen.pin("busybox:1", descriptor), "docker.io/library/busybox@x:y")
        self.assertRaises(InvalidJSON, ciderglen.pin, "busybox", b"")
        self.assertTrue(ciderglen.is_digest("foo:bar"))
        self.assertFalse(ciderglen.is_digest("sha256:abc"))
        self.assertFalse(ciderglen.is_digest(""))

    def test_verify(self):
        """The digest of FIPS 180-4's example abc."""
        digest = "sha256:ba7816bf8f01cfea414140de5dae2223b00361a396177a9cb410ff61f20015ad"
        for text, size, content, status in (
            (digest, 3, b"abc", Status.DONE),
            (digest, 4, b"abc", Status.OTHER_SIZE),
            (digest, 3, b"abd", Status.OTHER_DIGEST),
            ("md5:900150983cd24fb0", 3, b"abc", Status.UNKNOWN_ALGORITHM),
            ("sha256:abc", 3, b"abc", Status.INVALID_DIGEST),
            ("\udc80", 3, b"abc", Status.INVALID_UTF8),
        ):
            self.assertEqual(ciderglen.verify(text, size, content), status)
        self.assertRaises(ValueError, ciderglen.verify, digest, 1 << 64, b"")


if __name__ == "__main__":
    unittest.main()
