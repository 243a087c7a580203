//! Links the comparison program, and it alone, with the checker's library.

use std::path::Path;

fn main() {
    println!("cargo:rerun-if-env-changed=SHQ_LIB");
    let Ok(folder) = std::env::var("SHQ_LIB") else {
        eprintln!("SHQ_LIB is not set: it must name the folder that holds libshq_c.a");
        std::process::exit(1);
    };
    let library = Path::new(&folder).join("libshq_c.a");
    if !library.is_file() {
        eprintln!("SHQ_LIB: there is no file {}", library.display());
        std::process::exit(1);
    }
    println!("cargo:rerun-if-changed={}", library.display());
    println!("cargo:rustc-link-arg-bins={}", library.display());
}
