// Links the archive named by ACON_LIB, an absolute path.
fn main() {
    println!("cargo:rerun-if-env-changed=ACON_LIB");
    let lib = std::env::var("ACON_LIB").expect("ACON_LIB names the archive");
    println!("cargo:rerun-if-changed={lib}");
    println!("cargo:rustc-link-arg={lib}");
}
