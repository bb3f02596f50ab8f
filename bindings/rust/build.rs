//! Links the proved library: ONC_LIBRARY names the static archive, by default the one that bindings/build.sh writes.
use std::env;
use std::path::PathBuf;
use std::process::exit;

fn fail(message: &str) -> ! {
    eprintln!("onc: {message}");
    exit(1)
}

fn main() {
    println!("cargo:rerun-if-env-changed=ONC_LIBRARY");
    let library = match env::var_os("ONC_LIBRARY") {
        Some(named) => PathBuf::from(named),
        None => match env::var_os("CARGO_MANIFEST_DIR") {
            Some(here) => PathBuf::from(here).join("../../target/lib/libonc.a"),
            None => fail("build.rs is run by cargo"),
        },
    };
    let library = match library.canonicalize() {
        Ok(found) if found.is_file() => found,
        _ => fail(&format!(
            "the static archive {} is not there: run `bash bindings/build.sh`, or set ONC_LIBRARY to a libonc.a that it wrote",
            library.display()
        )),
    };
    match (library.parent().and_then(|p| p.to_str()), library.file_name().and_then(|f| f.to_str())) {
        (Some(folder), Some(file)) => {
            println!("cargo:rerun-if-changed={folder}/{file}");
            println!("cargo:rustc-link-search=native={folder}");
            println!("cargo:rustc-link-lib=static:+verbatim={file}");
        }
        _ => fail(&format!("the path {} is not UTF-8", library.display())),
    }
}
