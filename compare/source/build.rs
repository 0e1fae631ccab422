//! Takes path.rs, flatten.rs and dash.rs from the folder that HIZLAOU_SOURCE names, where they stand.
use std::{env, fs, path::Path};

fn main() {
    println!("cargo:rerun-if-env-changed=HIZLAOU_SOURCE");
    let Ok(folder) = env::var("HIZLAOU_SOURCE") else {
        panic!("HIZLAOU_SOURCE is not set: name the folder that has the Rust source's path.rs, flatten.rs and dash.rs");
    };
    let mut modules = String::new();
    for name in ["path", "flatten", "dash"] {
        let file = Path::new(&folder).join(name).with_extension("rs");
        let file = fs::canonicalize(&file).unwrap_or_else(|e| panic!("{}: {e}", file.display()));
        println!("cargo:rerun-if-changed={}", file.display());
        modules += &format!("#[allow(warnings)] #[path = {file:?}] pub mod {name};\n");
    }
    fs::write(Path::new(&env::var("OUT_DIR").unwrap()).join("modules.rs"), modules).unwrap();
}
