// Where the library stands: target/staticlib of this repository, or the folder that ICEWIMPLE_LIBRARY names.
// The proved archive is for x86-64. For another processor c/pool.c makes one of the same calls, in a folder that is named; where none is,
// nothing is linked, and `cargo check` does without it.
use std::env;
use std::path::PathBuf;

fn main() {
    let named = env::var_os("ICEWIMPLE_LIBRARY");
    let links = named.is_some() || env::var("CARGO_CFG_TARGET_ARCH").as_deref() == Ok("x86_64");
    let folder = match named {
        Some(named) => PathBuf::from(named),
        None => {
            PathBuf::from(env::var_os("CARGO_MANIFEST_DIR").expect("cargo says where the crate is"))
                .join("../target/staticlib")
        }
    };
    println!("cargo:rerun-if-env-changed=ICEWIMPLE_LIBRARY");
    println!("cargo:rerun-if-changed={}", folder.join("libboard.a").display());
    if links {
        if !folder.join("libboard.a").exists() {
            println!(
                "cargo:warning=there is no libboard.a in {}: build it with tools/library, or name its folder in ICEWIMPLE_LIBRARY",
                folder.display()
            );
        }
        println!("cargo:rustc-link-search=native={}", folder.display());
        println!("cargo:rustc-link-lib=static=board");
    }
}
