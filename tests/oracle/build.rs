//! Points stand_ins/laminar.rs at the folder with laminar's source: `LAMINAR`, or the one that
//! stands beside the repository. Either the folder itself or its src/ has the files.

use std::{env, fs, path::PathBuf};

const BESIDE_THE_REPOSITORY: &str = "../../../shared/docs/src";

fn main() {
    let given = env::var("LAMINAR").unwrap_or_else(|_| BESIDE_THE_REPOSITORY.to_string());
    let folder = PathBuf::from(&given);
    let source = [folder.join("src"), folder.clone()]
        .iter()
        .find(|place| place.join("sequence_buffer.rs").is_file())
        .unwrap_or_else(|| panic!("no source of laminar below {}", given))
        .canonicalize()
        .expect("a path to laminar's source");

    let tree = fs::read_to_string("stand_ins/laminar.rs").expect("stand_ins/laminar.rs");
    let out = PathBuf::from(env::var("OUT_DIR").expect("OUT_DIR")).join("laminar.rs");
    let path = source.to_str().expect("a path in UTF-8");
    fs::write(out, tree.replace("LAMINAR_SRC", path)).expect("the tree of modules");

    println!("cargo:rerun-if-env-changed=LAMINAR");
    println!("cargo:rerun-if-changed=stand_ins");
    println!("cargo:rerun-if-changed={}", path);
}
