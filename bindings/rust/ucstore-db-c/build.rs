//! Names the shared object for those that are linked to it: by the version of its functions.

fn main() {
    println!("cargo:rerun-if-changed=build.rs");
    println!("cargo:rustc-cdylib-link-arg=-Wl,-soname,libucstore_db.so.2");
    println!("cargo:rustc-cdylib-link-arg=-Wl,-z,defs,-z,relro,-z,now");
}
