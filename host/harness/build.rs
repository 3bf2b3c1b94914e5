//! Links the proved core if its archive is there: `target/staticlib/libargcol.a` of the repository
//! (`host/archive` makes it), or where ARGCOL_ARCHIVE says. An archive that was asked for by that name has to be there.

#[path = "../argcol/archive.rs"]
mod archive;

use std::{env, process::exit};

fn main() {
    println!("cargo::rustc-check-cfg=cfg(have_archive)");
    println!("cargo::rerun-if-changed=../argcol/archive.rs");
    match archive::folder() {
        Ok(folder) => {
            println!("cargo::rustc-cfg=have_archive");
            println!("cargo::rustc-link-search=native={}", folder.display());
            println!("cargo::rustc-link-lib=static=argcol");
        }
        Err(lines) => {
            let asked = env::var_os("ARGCOL_ARCHIVE").is_some();
            let level = if asked { "error" } else { "warning" };
            lines.iter().for_each(|line| println!("cargo::{level}={line}"));
            if asked {
                exit(1);
            }
            println!("cargo::warning=the proved core is passed over");
        }
    }
}
