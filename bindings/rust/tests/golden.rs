//! The documents of the folder that CIDERGLEN_GOLDEN names, which tools/test_bindings writes, and a test of each function.
use ciderglen::{
    broken_rules, is_digest, normalize, normalize_pretty, pin, resolve_registry, verify,
    violations, BrokenRule, Error, Kind, Level, Platform, Reference, Violation,
};
use std::path::PathBuf;
use std::{env, fs, thread};

const LAYOUT: &[u8] = br#"{"x":1, "imageLayoutVersion":"1.0.0"}"#;

fn documents() -> Vec<PathBuf> {
    let Some(folder) = env::var_os("CIDERGLEN_GOLDEN") else {
        return Vec::new();
    };
    let entries = fs::read_dir(folder).expect("a folder");
    let paths = entries.map(|entry| entry.expect("an entry").path());
    paths
        .filter(|path| path.extension().map_or(false, |it| it == "json"))
        .collect()
}

#[test]
fn golden_documents() {
    for path in documents() {
        let base = path.with_extension("");
        let number = base.extension().expect("a kind").to_string_lossy();
        let kind = Kind::ALL[number.parse::<usize>().expect("a number")];
        let document = fs::read(&path).expect("a file");
        let text = normalize(kind, &document);
        match fs::read(path.with_extension("expected")) {
            Ok(expected) => {
                assert_eq!(text, Ok(expected), "{}", path.display());
                assert_eq!(violations(kind, &document), Ok(Vec::new()));
                let pretty = normalize_pretty(kind, &document).expect("a document");
                assert_eq!(normalize(kind, &pretty), text);
            }
            Err(_) => assert!(matches!(
                text,
                Err(Error::InvalidDocument | Error::InvalidJson)
            )),
        }
    }
}

#[test]
fn errors() {
    for (kind, document, error) in [
        (Kind::Layout, "", Error::InvalidJson),
        (Kind::Layout, "{", Error::InvalidJson),
        (Kind::Layout, "{}", Error::InvalidDocument),
        (Kind::Manifest, "[]", Error::InvalidDocument),
    ] {
        assert_eq!(normalize(kind, document.as_bytes()), Err(error));
        assert_eq!(normalize_pretty(kind, document.as_bytes()), Err(error));
    }
    assert_eq!(violations(Kind::Layout, b""), Err(Error::InvalidJson));
}

fn violation(pointer: &str, expected: &str) -> Violation {
    Violation {
        pointer: pointer.into(),
        expected: expected.into(),
    }
}

// a name with a newline, an escape sequence, a NUL and U+202E is raw in a violation, and escaped where it is shown
#[test]
fn hostile_names() {
    let document = "{\"schemaVersion\":2,\"manifests\":[],\"annotations\":{\"a\\n\\u001b[2J\\u0000\u{9b}\u{202e}\u{2028}\\\\\\\"é\":1,\"c~/\":1}}";
    let found = violations(Kind::Index, document.as_bytes()).expect("JSON");
    let expected = [
        violation(
            "/annotations/a\n\x1b[2J\0\u{9b}\u{202e}\u{2028}\\\"é",
            "a string",
        ),
        violation("/annotations/c~0~1", "a string"),
    ];
    assert_eq!(found, expected);
    assert_eq!(
        found[0].to_string(),
        r#"/annotations/a\n\u{1b}[2J\0\u{9b}\u{202e}\u{2028}\\"é: a string"#
    );
    assert_eq!(found[1].to_string(), "/annotations/c~0~1: a string");
    let expected = violation(
        "/imageLayoutVersion",
        "required member is missing (a string)",
    );
    assert_eq!(violations(Kind::Layout, b"{}"), Ok(vec![expected]));
}

fn broken_rule(texts: [&str; 5]) -> BrokenRule {
    let [pointer, rule, level, section, wanted] = texts.map(String::from);
    BrokenRule {
        pointer,
        rule,
        level,
        section,
        wanted,
    }
}

#[test]
fn rules() {
    let document = br#"{"imageLayoutVersion":"1.0.1"}"#;
    let found = broken_rules(Kind::Layout, Level::Stated, Platform::OfDocument, document);
    let expected = broken_rule([
        "/imageLayoutVersion",
        "layout-version",
        "stated",
        "image image-layout.md#oci-layout-file",
        "1.0.0",
    ]);
    assert_eq!(
        expected.to_string(),
        "/imageLayoutVersion: layout-version (stated, image image-layout.md#oci-layout-file): 1.0.0"
    );
    assert_eq!(found, Ok(vec![expected]));
    assert_eq!(
        broken_rule(["/\n", "\x1b", "must", "\0", "\u{202e}"]).to_string(),
        r"/\n: \u{1b} (must, \0): \u{202e}"
    );
    let found = broken_rules(Kind::Layout, Level::Must, Platform::Linux, document);
    assert_eq!(found, Ok(Vec::new()));
    assert_eq!(
        broken_rules(Kind::Layout, Level::Host, Platform::Zos, b"{"),
        Err(Error::InvalidJson)
    );
}

// the digest of FIPS 180-4's example `abc`
#[test]
fn contents() {
    let digest = "sha256:ba7816bf8f01cfea414140de5dae2223b00361a396177a9cb410ff61f20015ad";
    assert_eq!(verify(digest, 3, b"abc"), Ok(()));
    assert_eq!(verify(digest, 4, b"abc"), Err(Error::OtherSize));
    assert_eq!(verify(digest, 3, b"abd"), Err(Error::OtherDigest));
    assert_eq!(
        verify("md5:900150983cd24fb0", 3, b"abc"),
        Err(Error::UnknownAlgorithm)
    );
    assert_eq!(verify("sha256:abc", 3, b"abc"), Err(Error::InvalidDigest));
}

#[test]
fn references() {
    let digest = format!("sha256:{}", "0".repeat(64));
    let reference = Reference::parse(&format!("test:5000/team/app:v1@{digest}")).expect("one");
    assert_eq!(reference.registry(), "test:5000");
    assert_eq!(reference.repository(), "team/app");
    assert_eq!(reference.tag(), Some("v1"));
    assert_eq!(reference.digest(), Some(digest.as_str()));
    let reference: Reference = "busybox".parse().expect("one");
    assert_eq!(reference.to_string(), "docker.io/library/busybox:latest");
    assert_eq!(
        (reference.tag(), reference.digest()),
        (Some("latest"), None)
    );
    assert_eq!(Reference::parse(""), Err(Error::NameEmpty));
    assert_eq!(
        Reference::parse("Uppercase/repo"),
        Err(Error::NameContainsUppercase)
    );
    assert_eq!(resolve_registry("busybox"), Ok("index.docker.io".into()));
    let descriptor = br#"{"mediaType":"a/b","size":1,"digest":"x:y"}"#;
    assert_eq!(
        pin("busybox:1", descriptor),
        Ok("docker.io/library/busybox@x:y".into())
    );
    assert_eq!(pin("busybox", b""), Err(Error::InvalidJson));
    assert!(is_digest("foo:bar") && !is_digest("sha256:abc") && !is_digest(""));
}

#[test]
fn threads() {
    thread::scope(|scope| {
        for _ in 0..8 {
            scope.spawn(|| {
                for _ in 0..200 {
                    let text = normalize(Kind::Layout, LAYOUT).expect("a layout");
                    assert_eq!(text, br#"{"imageLayoutVersion":"1.0.0"}"#);
                }
            });
        }
    });
}

#[test]
fn same_interface() {
    // SAFETY: it takes nothing and answers a number.
    let interface = unsafe { ciderglen_sys::ciderglen_interface() };
    assert_eq!(interface, ciderglen_sys::CIDERGLEN_INTERFACE);
}
