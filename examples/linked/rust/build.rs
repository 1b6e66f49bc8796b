//! Links libnanobot.a, which `./prove` builds. `NANOBOT_LIB` has its folder.

fn main() {
    println!("cargo:rerun-if-env-changed=NANOBOT_LIB");
    let folder = std::env::var("NANOBOT_LIB").expect("NANOBOT_LIB has the folder of libnanobot.a");
    println!("cargo:rustc-link-search=native={folder}");
    println!("cargo:rustc-link-lib=static=nanobot");
}
