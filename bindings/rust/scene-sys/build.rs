//! Names the library of Scene to the linker, in the folder that the variable SCENE_LIB_DIR names.
//!
//! What makes no program, as `cargo doc` and `cargo check`, needs no library: where there is none, this says so as a
//! warning, and only linking ends with an error.
use std::path::PathBuf;

const VARIABLE: &str = "SCENE_LIB_DIR";
const LIBRARY: &str = "libscene.a";

/// The whole path of the folder that has the library, since the linker runs elsewhere; or what is missing.
fn folder() -> Result<PathBuf, String> {
    let Some(named) = std::env::var_os(VARIABLE).filter(|named| !named.is_empty()) else {
        return Err(format!("{VARIABLE} isn't set; it names the folder that has {LIBRARY}"));
    };
    let folder = PathBuf::from(&named)
        .canonicalize()
        .map_err(|error| format!("the folder {} of {VARIABLE} can't be read: {error}", named.to_string_lossy()))?;
    let library = folder.join(LIBRARY);
    println!("cargo:rerun-if-changed={}", library.display());
    if library.is_file() {
        Ok(folder)
    } else {
        Err(format!("there is no {LIBRARY} in {}, which {VARIABLE} names", folder.display()))
    }
}

fn main() {
    println!("cargo:rerun-if-env-changed={VARIABLE}");
    match folder() {
        Ok(folder) => println!("cargo:rustc-link-search=native={}", folder.display()),
        Err(lacks) => println!(
            "cargo:warning={lacks}; run `./scene library FOLDER` at the top of Scene, which puts {LIBRARY} there, and \
             then `{VARIABLE}=FOLDER cargo build`"
        ),
    }
    println!("cargo:rustc-link-lib=static=scene");
}
