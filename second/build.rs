//! Links the library under test when `ZPU_LIB_DIR` names the folder that holds `libzpu_c.a`.

fn main() {
    println!("cargo::rustc-check-cfg=cfg(zpu_library)");
    println!("cargo::rerun-if-env-changed=ZPU_LIB_DIR");
    if let Ok(folder) = std::env::var("ZPU_LIB_DIR") {
        println!("cargo::rerun-if-changed={folder}/libzpu_c.a");
        println!("cargo::rustc-link-search=native={folder}");
        println!("cargo::rustc-link-lib=static=zpu_c");
        println!("cargo::rustc-cfg=zpu_library");
    }
}
