//! Makes the C library of the text in dist/, by the C compiler that CC names. That is cc, or for another target than
//! this machine the compiler with the target's name. dist/ is the folder that TT_RENDER_DIST names, or the repository's.
use std::env;
use std::path::PathBuf;
use std::process::Command;

/// The folder dist/.
fn dist() -> PathBuf {
    env::var_os("TT_RENDER_DIST").map_or_else(|| PathBuf::from("dist"), PathBuf::from)
}

fn main() {
    let out = PathBuf::from(env::var_os("OUT_DIR").expect("cargo sets OUT_DIR"));
    let target = env::var("TARGET").expect("cargo sets TARGET");
    let mut install = Command::new("bash");
    install
        .arg(dist().join("install"))
        .arg("--library")
        .arg(&out);
    if env::var_os("CC").is_none() && env::var("HOST").as_deref() != Ok(&target) {
        install.env("CC", format!("{}-gcc", target.replace("-unknown", "")));
    }
    let made = install.status().expect("bash is on the PATH");
    assert!(
        made.success(),
        "the C library was not made; a line above says why"
    );
    println!(
        "cargo:rustc-link-search=native={}",
        out.join("lib").display()
    );
    println!("cargo:rustc-link-lib=static=tt_render");
    println!("cargo:rerun-if-changed={}", dist().display());
    println!("cargo:rerun-if-env-changed=TT_RENDER_DIST");
    println!("cargo:rerun-if-env-changed=CC");
    println!("cargo:rerun-if-env-changed=CFLAGS");
}
