//! Links the archive of the proved operations. The Makefile says where it is.

fn main() {
    println!("cargo:rerun-if-env-changed=PROVED_ARCHIVE");
    let folder = std::env::var("PROVED_ARCHIVE").expect("PROVED_ARCHIVE: the folder of libentries.a; use make");
    println!("cargo:rerun-if-changed={folder}/libentries.a");
    println!("cargo:rustc-link-search=native={folder}");
    println!("cargo:rustc-link-lib=static=entries");
}
