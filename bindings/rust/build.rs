//! Links the engine's libraries, which tools/static_libraries.sh proves, compiles and puts into target/staticlib where one is missing or older than a source.
use std::fs::{self, OpenOptions};
use std::path::{Path, PathBuf};
use std::process::{Command, Stdio};

/// The crates whose functions are exported; each is a library of its name.
const LIBRARIES: [&str; 4] = ["host", "direct", "direct_fast", "planning_host"];

/// The folders of a crate that `rt` reads.
const READ: [&str; 3] = ["src", "specs", "proofs"];

/// All that a library may be made from.
fn sources(root: &Path) -> Vec<PathBuf> {
    let crates = fs::read_dir(root.join("crates")).expect("the folder crates could not be read");
    let folders = crates.flatten().flat_map(|entry| READ.map(|name| entry.path().join(name)));
    folders.filter(|folder| folder.is_dir()).chain([root.join("crates.txt")]).collect()
}

/// The terminal, where there is one: of what a build script writes, cargo shows nothing before it fails.
fn terminal() -> Stdio {
    OpenOptions::new().write(true).open("/dev/tty").map_or_else(|_| Stdio::inherit(), Stdio::from)
}

fn prove_and_compile(root: &Path) {
    let status = Command::new(root.join("tools/static_libraries.sh"))
        .args(LIBRARIES)
        .stdout(terminal())
        .stderr(terminal())
        .status()
        .expect("tools/static_libraries.sh, which calls `rt`, the command of the Rattle kit, could not be started");
    assert!(status.success(), "`tools/static_libraries.sh {}` failed", LIBRARIES.join(" "));
}

fn main() {
    // cargo starts this in the crate's folder. What it is to watch has no absolute path, so that a copy of the checkout watches its own files.
    let root = Path::new("../..");
    prove_and_compile(root);
    let folder = root.join("target/staticlib");
    println!("cargo:rustc-link-search=native={}", folder.canonicalize().unwrap().display());
    for name in LIBRARIES {
        println!("cargo:rustc-link-lib=static={name}");
        println!("cargo:rerun-if-changed={}", folder.join(format!("lib{name}.a")).display());
    }
    for path in sources(root) {
        println!("cargo:rerun-if-changed={}", path.display());
    }
}
