//! Links libmarket_time.a: from the folder MARKET_TIME_LIB, else from the repository's target/staticlib.

use std::path::{Path, PathBuf};
use std::process::exit;

const NAME: &str = "libmarket_time.a";

/// Where an object file has the number of its machine, and the two numbers this crate knows.
const MACHINE_AT: usize = 18;
const MACHINES: [(&str, u16); 2] = [("x86_64", 62), ("aarch64", 183)];

fn main() {
    println!("cargo:rerun-if-env-changed=MARKET_TIME_LIB");
    let folder = folder();
    let library = folder.join(NAME);
    println!("cargo:rerun-if-changed={}", library.display());
    let bytes = match std::fs::read(&library) {
        Ok(bytes) => bytes,
        Err(error) => fail(&format!("{} cannot be read ({error}).", library.display())),
    };
    let target = std::env::var("CARGO_CFG_TARGET_ARCH").unwrap_or_default();
    if !is_for(&bytes, &target) {
        fail(&format!("{} is not for {target}.", library.display()));
    }
    println!("cargo:rustc-link-search=native={}", folder.display());
    println!("cargo:rustc-link-lib=static=market_time");
}

fn folder() -> PathBuf {
    match std::env::var_os("MARKET_TIME_LIB") {
        Some(given) if Path::new(&given).is_absolute() => given.into(),
        Some(_) => fail("MARKET_TIME_LIB must be a full path, one that begins with a slash."),
        None => Path::new(env!("CARGO_MANIFEST_DIR")).join("../target/staticlib"),
    }
}

/// Whether the first object file of the archive is for this machine.
fn is_for(archive: &[u8], target: &str) -> bool {
    let object = archive
        .windows(4)
        .position(|four| four == b"\x7fELF")
        .map(|at| &archive[at..]);
    let machine = object.and_then(|object| object.get(MACHINE_AT..MACHINE_AT + 2));
    MACHINES
        .iter()
        .any(|(name, number)| *name == target && machine == Some(&number.to_le_bytes()))
}

fn fail(why: &str) -> ! {
    eprintln!("{why}");
    eprintln!("In the repository's root, make the library, for x86-64:");
    eprintln!("  tools/native-staticlib market_time target/staticlib/{NAME}");
    eprintln!("This build then finds it by itself. Elsewhere: set MARKET_TIME_LIB to the full path of its folder.");
    exit(1);
}
