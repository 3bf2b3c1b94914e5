//! Links the proved core: `libargcol.a` in `target/staticlib` of the repository, or where ARGCOL_ARCHIVE says.

mod archive;

use std::process::exit;

fn main() {
    match archive::folder() {
        Ok(folder) => {
            println!("cargo::rustc-link-search=native={}", folder.display());
            println!("cargo::rustc-link-lib=static=argcol");
        }
        Err(lines) => {
            lines.iter().for_each(|line| println!("cargo::error={line}"));
            exit(1);
        }
    }
}
