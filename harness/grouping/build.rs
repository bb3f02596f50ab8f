//! Links the program `compare` with the proved library: LIBRARIES names the archives that `rt lib` wrote, with a space between two.
fn main() {
    println!("cargo:rerun-if-env-changed=LIBRARIES");
    if let Ok(libraries) = std::env::var("LIBRARIES") {
        for library in libraries.split_whitespace() {
            println!("cargo:rerun-if-changed={library}");
            println!("cargo:rustc-link-arg-bin=compare={library}");
        }
    }
}
