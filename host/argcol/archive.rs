//! Where the archive of the proved core is, for the build scripts of this crate and of the comparison.

use std::{
    env,
    ffi::OsStr,
    fs,
    path::{Path, PathBuf},
};

/// The archive's file name.
pub const FILE: &str = "libargcol.a";

/// The folder of the archive. What is wrong is told in lines for a person.
pub fn folder() -> Result<PathBuf, Vec<String>> {
    println!("cargo::rerun-if-env-changed=ARGCOL_ARCHIVE");
    let target = |name| env::var(format!("CARGO_CFG_TARGET_{name}")).unwrap_or_default();
    platform(&target("ARCH"), &target("OS"))?;
    let root = Path::new(env!("CARGO_MANIFEST_DIR")).join("../..");
    let started = env::var_os("PWD").map(PathBuf::from);
    let files = places(env::var_os("ARGCOL_ARCHIVE").as_deref(), started.as_deref(), &root);
    files.iter().for_each(|file| println!("cargo::rerun-if-changed={}", file.display()));
    let file = files.iter().find(|file| file.is_file()).ok_or_else(|| missing(&files))?;
    let unread = |error| vec![format!("{}: {error}", file.display())];
    contents(file, &fs::read(file).map_err(unread)?)?;
    // the linker is started in another folder
    let file = file.canonicalize().map_err(unread)?;
    Ok(file.parent().unwrap_or(Path::new("/")).to_path_buf())
}

/// The archive is for one platform.
pub fn platform(arch: &str, os: &str) -> Result<(), Vec<String>> {
    if (arch, os) == ("x86_64", "linux") {
        return Ok(());
    }
    Err(vec![format!("the proved core is built for x86-64 Linux, and not for {arch} {os}")])
}

/// Where the archive may be. ARGCOL_ARCHIVE names the folder or the file; a relative path begins in the folder in which
/// cargo was started, in the workspace's or at the repository's root.
pub fn places(named: Option<&OsStr>, started: Option<&Path>, root: &Path) -> Vec<PathBuf> {
    let from = match named.map(Path::new) {
        None => vec![root.join("target/staticlib")],
        Some(named) if named.is_absolute() => vec![named.into()],
        Some(named) => {
            let started = started.filter(|folder| folder.is_absolute()).map(Path::to_path_buf);
            started.into_iter().chain([root.join("host"), root.into()]).map(|folder| folder.join(named)).collect()
        }
    };
    from.into_iter().map(|path| if path.ends_with(FILE) { path } else { path.join(FILE) }).collect()
}

fn missing(files: &[PathBuf]) -> Vec<String> {
    let mut lines: Vec<String> =
        files.iter().map(|file| format!("the proved core is not at {}", file.display())).collect();
    lines.push(format!(
        "run `host/archive` at the repository's root, or let ARGCOL_ARCHIVE name the folder of {FILE}"
    ));
    lines
}

/// The archive says its version, from version 1 on; which one it is, the crate asks before its first call.
pub fn contents(file: &Path, bytes: &[u8]) -> Result<(), Vec<String>> {
    let symbol = b"argcol_version\0";
    if bytes.windows(symbol.len()).any(|window| window == symbol) {
        return Ok(());
    }
    let file = file.display();
    Err(vec![
        format!("{file} has no function argcol_version: it is no archive of the proved core, or an old one"),
        "run `host/archive` at the repository's root".into(),
    ])
}
