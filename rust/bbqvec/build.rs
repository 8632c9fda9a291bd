//! Links the compiled calls. BBQVEC_OBJECT names them: the object file or the static library that tools/library writes.
use std::env;
use std::fs;
use std::path::{Path, PathBuf};
use std::process::Command;

fn main() {
    println!("cargo:rerun-if-env-changed=BBQVEC_OBJECT");
    println!("cargo:rerun-if-env-changed=AR");
    let Some(object) = env::var_os("BBQVEC_OBJECT").map(PathBuf::from) else {
        panic!("set BBQVEC_OBJECT to the object file or the static library that tools/library writes, by its full path");
    };
    if !object.is_absolute() || !object.is_file() {
        panic!("BBQVEC_OBJECT must be the full path of an object file or a static library, and {} is none", object.display());
    }
    println!("cargo:rerun-if-changed={}", object.display());
    let out = PathBuf::from(env::var_os("OUT_DIR").expect("cargo sets OUT_DIR"));
    let library = out.join("libbbqvec_calls.a");
    let _ = fs::remove_file(&library);
    if object.extension().is_some_and(|e| e == "a") {
        fs::copy(&object, &library).unwrap_or_else(|e| panic!("{}: {e}", object.display()));
    } else {
        archive(&object, &library);
    }
    println!("cargo:rustc-link-search=native={}", out.display());
    println!("cargo:rustc-link-lib=static=bbqvec_calls");
}

fn archive(object: &Path, library: &Path) {
    let ar = env::var_os("AR").unwrap_or_else(|| "ar".into());
    let done = Command::new(&ar).arg("crs").arg(library).arg(object).status();
    assert!(done.as_ref().is_ok_and(|s| s.success()), "{} could not make a library of {}: {done:?}", ar.to_string_lossy(), object.display());
}
