// Defines where cargo finds the static library: OATCASTLE_LIBRARY, else a release's or this repository's folder with the archive for cargo's TARGET.
// Assumes that it is there; warns where it is not, and says which command makes it, since only what is linked needs it.

use std::env;
use std::path::{Path, PathBuf};

/// Of each target its name, the folder of its archive in a release and in this repository, and the command that makes it.
const ARCHIVES: [(&str, &str, &str, &str); 9] = [
    ("x86_64-unknown-linux-gnu", "lib/x86_64-linux", "crates/oatcastle/out", "cd crates/oatcastle && rt lib --cpu x86-64"),
    ("x86_64-unknown-linux-musl", "lib/x86_64-linux", "crates/oatcastle/out", "cd crates/oatcastle && rt lib --cpu x86-64"),
    ("aarch64-unknown-linux-gnu", "lib/aarch64-linux", "target/cross/aarch64-O2", "cross/build aarch64-O2"),
    ("thumbv6m-none-eabi", "lib/cortex-m0", "target/cross/thumbv6m-Os", "cross/build thumbv6m-Os"),
    ("thumbv7em-none-eabi", "lib/cortex-m4", "target/cross/thumbv7em-Os", "cross/build thumbv7em-Os"),
    ("thumbv7em-none-eabihf", "lib/cortex-m4-hard", "target/cross/thumbv7emhf-Os", "cross/build thumbv7emhf-Os"),
    ("thumbv8m.main-none-eabi", "lib/cortex-m33", "target/cross/thumbv8m-Os", "cross/build thumbv8m-Os"),
    ("thumbv8m.main-none-eabihf", "lib/cortex-m33-hard", "target/cross/thumbv8mhf-Os", "cross/build thumbv8mhf-Os"),
    ("riscv32imc-unknown-none-elf", "lib/riscv32imc", "target/cross/riscv32imc-Os", "cross/build riscv32imc-Os"),
];

/// A folder with the archive, and how to make one that is missing.
fn archive() -> Result<(PathBuf, String), String> {
    if let Some(folder) = env::var_os("OATCASTLE_LIBRARY") {
        return Ok((folder.into(), "it is the folder of OATCASTLE_LIBRARY".into()));
    }
    let target = env::var("TARGET").unwrap_or_default();
    let root = Path::new(&env::var_os("CARGO_MANIFEST_DIR").unwrap_or_default()).join("../..");
    match ARCHIVES.into_iter().find(|(name, ..)| *name == target) {
        Some((_, released, ..)) if root.join(released).exists() => Ok((root.join(released), "it is the release's folder".into())),
        Some((_, _, folder, command)) => Ok((root.join(folder), format!("the command that makes it: {command}"))),
        None => Err(format!(
            "there is no archive for {target}; cross/targets has the processors, and OATCASTLE_LIBRARY names a folder with another"
        )),
    }
}

fn main() {
    println!("cargo:rerun-if-env-changed=OATCASTLE_LIBRARY");
    println!("cargo:rerun-if-changed=build.rs");
    println!("cargo:rustc-link-lib=static=oatcastle");
    match archive() {
        Ok((folder, how)) => {
            let file = folder.join("liboatcastle.a");
            if !file.exists() {
                println!("cargo:warning={} is missing; {how}", file.display());
            }
            println!("cargo:rerun-if-changed={}", file.display());
            println!("cargo:rustc-link-search=native={}", folder.display());
        }
        Err(reason) => println!("cargo:warning={reason}"),
    }
}
