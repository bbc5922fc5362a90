//! Finds the static library: in the folder that `CONTHIRAL_LIB_DIR` names, else as pkg-config says.

use std::env;
use std::process::Command;

fn library_folder() -> String {
    if let Ok(folder) = env::var("CONTHIRAL_LIB_DIR") {
        return folder;
    }
    let found = Command::new("pkg-config").args(["--variable=libdir", "conthiral"]).output();
    match found {
        Ok(output) if output.status.success() => String::from_utf8_lossy(&output.stdout).trim().to_string(),
        _ => {
            panic!("libconthiral.a isn't found: set CONTHIRAL_LIB_DIR to its folder, or have pkg-config know conthiral")
        }
    }
}

fn main() {
    println!("cargo:rerun-if-env-changed=CONTHIRAL_LIB_DIR");
    println!("cargo:rustc-link-search=native={}", library_folder());
    println!("cargo:rustc-link-lib=static=conthiral");
    // The unit tests and the examples of vob 4.0.1, where files have them.
    for (variable, condition) in [("CONTHIRAL_VOB_TESTS", "vob_tests"), ("CONTHIRAL_VOB_EXAMPLES", "vob_examples")] {
        println!("cargo:rerun-if-env-changed={variable}");
        if let Ok(file) = env::var(variable) {
            println!("cargo:rustc-cfg={condition}");
            println!("cargo:rustc-env={variable}={file}");
        }
    }
}
