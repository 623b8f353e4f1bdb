// Links the proved library and the kit's C parts.
use std::path::PathBuf;
use std::process::Command;

fn main() {
    let here = PathBuf::from(std::env::var("CARGO_MANIFEST_DIR").expect("cargo names the folder"));
    let library = here.join("../crates/exports/out");
    let guide = Command::new("rt").arg("doc").output().expect("rt is on the path");
    let guide = PathBuf::from(String::from_utf8_lossy(&guide.stdout).trim());
    let kit = guide.parent().expect("the guide lies in the kit's folder");
    println!("cargo:rustc-link-search=native={}", library.display());
    println!("cargo:rustc-link-lib=static=exports");
    println!("cargo:rustc-link-search=native={}", kit.join("c").display());
    println!("cargo:rustc-link-lib=static=os_c");
    println!("cargo:rustc-link-lib=static=libc_c");
    println!("cargo:rerun-if-changed={}", library.join("libexports.a").display());
}
