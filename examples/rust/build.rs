//! Links the proved library. RESB_LIB and RATTLE_C are the folders of the two archives.
use std::env::var;

fn main() {
    let library = var("RESB_LIB").expect("RESB_LIB: the folder of libresb_c.a");
    let below = var("RATTLE_C").expect("RATTLE_C: the folder of liblibc_c.a");
    println!("cargo:rustc-link-search=native={library}");
    println!("cargo:rustc-link-search=native={below}");
    println!("cargo:rustc-link-lib=static=resb_c\ncargo:rustc-link-lib=static=libc_c");
    println!("cargo:rerun-if-env-changed=RESB_LIB\ncargo:rerun-if-env-changed=RATTLE_C");
}
