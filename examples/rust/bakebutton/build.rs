//! Links libbakebutton.a, for x86-64 Linux. It is looked for in the folder that BAKEBUTTON_LIB_DIR names or, where that is not set, in the
//! target/lib of the repository that this crate stands in, where tools/library writes it, and where tools/install puts it.

use std::path::{Path, PathBuf};
use std::process::{Command, exit};
use std::{env, str};

const LIBRARY: &str = "libbakebutton.a";
const INSTALLED: [&str; 2] = ["/usr/local/lib", "/usr/lib"];

fn fail(text: &str) -> ! {
    eprintln!("bakebutton: {}", text);
    exit(1)
}

fn folders() -> Vec<PathBuf> {
    match env::var_os("BAKEBUTTON_LIB_DIR") {
        Some(folder) => vec![PathBuf::from(folder)],
        None => {
            let own = Path::new(&env::var_os("CARGO_MANIFEST_DIR").unwrap()).join("../../../target/lib");
            let mut all = vec![own];
            all.extend(INSTALLED.iter().map(PathBuf::from));
            all
        }
    }
}

/// Whether the compiler knows `unsafe extern`, which edition 2024 asks for: from 1.82 on.
fn knows_unsafe_extern() -> bool {
    let told = Command::new(env::var_os("RUSTC").unwrap()).arg("--version").output();
    let version = told.ok().and_then(|said| str::from_utf8(&said.stdout).ok()?.split('.').nth(1)?.parse::<u32>().ok());
    !matches!(version, Some(minor) if minor < 82)
}

fn main() {
    println!("cargo:rerun-if-changed=build.rs");
    println!("cargo:rerun-if-env-changed=BAKEBUTTON_LIB_DIR");
    println!("cargo:rustc-check-cfg=cfg(unsafe_extern)");
    if knows_unsafe_extern() {
        println!("cargo:rustc-cfg=unsafe_extern");
    }

    let system = [env::var("CARGO_CFG_TARGET_ARCH").unwrap(), env::var("CARGO_CFG_TARGET_OS").unwrap()];
    if system != ["x86_64", "linux"] {
        fail(&format!("the library is for x86-64 Linux alone, and this build for {} {}", system[0], system[1]));
    }
    let all = folders();
    let found = all.iter().find(|folder| folder.join(LIBRARY).is_file());
    match found {
        Some(folder) => {
            println!("cargo:rerun-if-changed={}", folder.join(LIBRARY).display());
            println!("cargo:rustc-link-search=native={}", folder.display());
            println!("cargo:rustc-link-lib=static=bakebutton");
        }
        None => {
            let looked: Vec<String> = all.iter().map(|folder| folder.display().to_string()).collect();
            fail(&format!("no {} in {}: run tools/library, or set BAKEBUTTON_LIB_DIR to the folder that has it", LIBRARY, looked.join(", ")));
        }
    }
}
