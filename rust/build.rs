//! Tells the linker where the library's archive is: in the folder DZYUNAGOR_LIB, else where `tools/archive.sh` puts it.
//! Without it, or for a processor that it is not for, the package can be checked (`cargo check`) and not linked.

use std::env::var;
use std::path::PathBuf;

const ARCHIVE: &str = "libdzyunagor.a";
const PROCESSOR: &str = "x86_64";

fn main() {
    println!("cargo:rerun-if-env-changed=DZYUNAGOR_LIB");
    let built = || PathBuf::from(env!("CARGO_MANIFEST_DIR")).join("../target/staticlib");
    let folder = var("DZYUNAGOR_LIB").map_or_else(|_| built(), PathBuf::from);
    let processor = var("CARGO_CFG_TARGET_ARCH").unwrap_or_default();
    println!("cargo:rerun-if-changed={}", folder.join(ARCHIVE).display());
    if processor != PROCESSOR {
        println!("cargo:warning={ARCHIVE} is for {PROCESSOR} and cannot be linked for {processor}");
        return;
    }
    if !folder.join(ARCHIVE).is_file() {
        let folder = folder.display();
        println!("cargo:warning={ARCHIVE} is not in {folder}: `tools/archive.sh` makes it, or set DZYUNAGOR_LIB to the folder that it is in");
    }
    println!("cargo:rustc-link-search=native={}", folder.display());
    println!("cargo:rustc-link-lib=static=dzyunagor");
}
