// Links libexports.a, which `rt lib` in crates/exports writes, from the folder that TINZOHER_LIB names.
use std::env;
use std::path::Path;

fn main() {
    println!("cargo:rerun-if-env-changed=TINZOHER_LIB");
    let folder = env::var("TINZOHER_LIB").expect(
        "set TINZOHER_LIB to the absolute path of the folder of libexports.a, crates/exports/out",
    );
    let library = Path::new(&folder).join("libexports.a");
    assert!(
        library.is_absolute() && library.is_file(),
        "TINZOHER_LIB: no file at the absolute path {}",
        library.display()
    );
    println!("cargo:rerun-if-changed={}", library.display());
    println!("cargo:rustc-link-search=native={folder}");
    println!("cargo:rustc-link-lib=static=exports");
}
