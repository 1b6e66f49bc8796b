//! Links libnanobot.a: from the folder that `NANOBOT_LIB` names, otherwise from `out` at the top of the repository, into which `./prove`
//! builds it, or from `lib` at the top of an archive that `scripts/package` made.

use std::env;
use std::path::PathBuf;

const LIBRARY: &str = "libnanobot.a";

fn main() {
    println!("cargo:rerun-if-env-changed=NANOBOT_LIB");
    let top = format!("{}/../..", env!("CARGO_MANIFEST_DIR"));
    let folders = match env::var("NANOBOT_LIB") {
        Ok(named) => vec![PathBuf::from(named)],
        Err(_) => vec![PathBuf::from(format!("{top}/out")), PathBuf::from(format!("{top}/lib"))],
    };
    for folder in &folders {
        println!("cargo:rerun-if-changed={}", folder.join(LIBRARY).display());
    }
    let Some(folder) = folders.iter().find(|folder| folder.join(LIBRARY).exists()) else {
        let tried: Vec<String> = folders.iter().map(|folder| folder.display().to_string()).collect();
        eprintln!("error: there is no {LIBRARY} in {}: run ./prove, or set NANOBOT_LIB to the folder that has it", tried.join(" or "));
        std::process::exit(1);
    };
    println!("cargo:rustc-link-search=native={}", folder.display());
    println!("cargo:rustc-link-lib=static=nanobot");
}
