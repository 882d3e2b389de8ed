//! MTPBANK_LIB is the folder of the static libraries; left out: where `rt lib` puts each in this repository.

fn link(library: &str) {
    let folder = std::env::var("MTPBANK_LIB")
        .unwrap_or_else(|_| format!("{}/../crates/{library}/out", env!("CARGO_MANIFEST_DIR")));
    println!("cargo:rustc-link-search=native={folder}");
    println!("cargo:rustc-link-lib=static={library}");
    println!("cargo:rerun-if-changed={folder}/lib{library}.a");
}

fn main() {
    println!("cargo:rerun-if-env-changed=MTPBANK_LIB");
    link("mtpbank_end");
    if std::env::var_os("CARGO_FEATURE_TEXTS").is_some() {
        link("mtpbank_texts");
    }
}
