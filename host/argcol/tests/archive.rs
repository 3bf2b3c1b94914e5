//! Where the build scripts look for the archive, and what they take.

#[allow(dead_code)]
#[path = "../archive.rs"]
mod archive;

use std::{ffi::OsStr, path::Path};

fn places(named: Option<&str>, started: Option<&str>) -> Vec<String> {
    let places = archive::places(named.map(OsStr::new), started.map(Path::new), Path::new("/r"));
    places.iter().map(|place| place.display().to_string()).collect()
}

#[test]
fn folders_and_files_by_absolute_and_relative_paths() {
    assert_eq!(places(None, Some("/here")), ["/r/target/staticlib/libargcol.a"]);
    for named in ["/a/b", "/a/b/", "/a/b/libargcol.a"] {
        assert_eq!(places(Some(named), Some("/here")), ["/a/b/libargcol.a"]);
    }
    for named in ["a/b", "a/b/libargcol.a"] {
        let places = places(Some(named), Some("/here"));
        assert_eq!(places, ["/here/a/b/libargcol.a", "/r/host/a/b/libargcol.a", "/r/a/b/libargcol.a"]);
    }
    for started in [None, Some("here"), Some("")] {
        assert_eq!(places(Some("a"), started), ["/r/host/a/libargcol.a", "/r/a/libargcol.a"]);
    }
}

#[test]
fn platforms() {
    assert_eq!(archive::platform("x86_64", "linux"), Ok(()));
    for (arch, os) in [("aarch64", "linux"), ("x86_64", "windows"), ("x86_64", "macos")] {
        let said = archive::platform(arch, os).unwrap_err();
        assert_eq!(said, [format!("the proved core is built for x86-64 Linux, and not for {arch} {os}")]);
    }
}

#[test]
fn what_is_no_archive_with_a_version() {
    let file = Path::new("libargcol.a");
    assert!(archive::contents(file, b"!<arch>\n..argcol_text\0argcol_version\0").is_ok());
    for bytes in [&b""[..], b"!<arch>\n", b"!<arch>\nargcol_fresh\0argcol_step\0", b"argcol_version"] {
        assert!(archive::contents(file, bytes).unwrap_err()[0].contains("has no function argcol_version"));
    }
}
