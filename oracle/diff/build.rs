//! Links the port: one object file, named by the environment variable PORT. Without it the program is built all the same, and then
//! only runs with the stub. The bench is built by this file too.

use std::{env, path::Path};

fn main() {
    println!("cargo:rerun-if-env-changed=PORT");
    match env::var("PORT") {
        Ok(object) if !object.is_empty() => {
            if !Path::new(&object).is_absolute() || !Path::new(&object).is_file() {
                panic!("PORT must be the whole path of the port's object file, and {object} is none");
            }
            println!("cargo:rerun-if-changed={object}");
            println!("cargo:rustc-link-arg-bins={object}");
            println!("cargo:rustc-cfg=port");
        }
        _ => println!("cargo:warning=PORT is not set: built without the port, for runs with the stub alone"),
    }
}
