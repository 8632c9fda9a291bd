//! Lays the published files and the stand-ins side by side in the build's own folder, so that neither has to stand among the other.

use std::{env, fs, path::Path};

fn lay(from: &Path, to: &Path) {
    fs::create_dir_all(to).unwrap();
    for entry in fs::read_dir(from).unwrap() {
        let path = entry.unwrap().path();
        let target = to.join(path.file_name().unwrap());
        if path.is_dir() {
            lay(&path, &target);
        } else {
            fs::write(&target, fs::read(&path).unwrap()).unwrap();
        }
    }
}

fn main() {
    let out = Path::new(&env::var("OUT_DIR").unwrap()).join("src");
    // The bench builds the same crate twice, from folders of its own.
    let oracle = Path::new(if Path::new("../published").is_dir() { ".." } else { "../../oracle" });
    let (published, stand_ins) = (oracle.join("published/src"), oracle.join("stand-ins"));
    lay(&published, &out);
    fs::write(out.join("helpers.rs"), fs::read(stand_ins.join("helpers.rs")).unwrap()).unwrap();
    fs::write(out.join("spaces/mod.rs"), fs::read(stand_ins.join("spaces-mod.rs")).unwrap()).unwrap();
    println!("cargo:rerun-if-changed={}", published.display());
    println!("cargo:rerun-if-changed={}", stand_ins.display());
}
