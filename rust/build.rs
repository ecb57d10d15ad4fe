//! Links the static library. ZEMPLOVIR_LIBS names the folders that hold it, with a colon between them: one with `libzemplovir.a`, which
//! `tools/install-c PREFIX` puts into `PREFIX/lib`, or those with `libzemplovir_c.a`, `libos_c.a` and `liblibc_c.a`.
use std::env;
use std::path::Path;

const HOW: &str = "Of the repository, `tools/install-c PREFIX` builds the library and puts it into PREFIX/lib (with its proof: an hour or more); \
                   `tools/quick-library FOLDER` builds libzemplovir_c.a in minutes, without its proof, for first tries, beside which the \
                   toolchain's folder of libos_c.a is named: ZEMPLOVIR_LIBS=FOLDER:$(dirname $(rt doc))/c";

fn main() {
    println!("cargo:rerun-if-env-changed=ZEMPLOVIR_LIBS");
    let named = env::var("ZEMPLOVIR_LIBS").unwrap_or_default();
    let folders: Vec<&str> = named.split(':').filter(|it| !it.is_empty()).collect();
    let has = |file: &str| folders.iter().any(|it| Path::new(it).join(file).exists());
    let libraries: &[&str] = if has("libzemplovir.a") { &["zemplovir"] } else { &["zemplovir_c", "os_c", "libc_c"] };
    for library in libraries {
        if !has(&format!("lib{library}.a")) {
            println!("cargo:warning=lib{library}.a is in no folder of ZEMPLOVIR_LIBS ({named:?}), so no program can be linked. {HOW}");
            break;
        }
    }
    for folder in folders {
        println!("cargo:rustc-link-search=native={folder}");
        println!("cargo:rerun-if-changed={folder}");
    }
    for library in libraries {
        println!("cargo:rustc-link-lib=static={library}");
    }
}
