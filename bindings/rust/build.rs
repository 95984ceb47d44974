//! Tells cargo where `libtcpclkit.a` is: in the folder TCPCLKIT_LIB, or where installs put it.

use std::path::{Path, PathBuf};

/// Where `install` and Debian's package put the archive.
const INSTALLED: [&str; 3] = ["/usr/local/lib", "/usr/lib/x86_64-linux-gnu", "/usr/lib"];

fn main() {
    println!("cargo:rerun-if-env-changed=TCPCLKIT_LIB");
    let folders = match std::env::var("TCPCLKIT_LIB") {
        Ok(folder) => vec![folder],
        Err(_) => INSTALLED.map(String::from).to_vec(),
    };
    let archive = |folder: &String| Path::new(folder).join("libtcpclkit.a");
    let Some(folder) = folders.iter().find(|it| archive(it).exists()) else {
        panic!(
            "libtcpclkit.a is not in {}: set TCPCLKIT_LIB to the folder that has it",
            folders.join(" or ")
        );
    };
    // The archive of a package has the time of its release, and dpkg's list that of the install.
    let list = PathBuf::from("/var/lib/dpkg/info/tcpclkit-dev.list");
    for path in [archive(folder), list].iter().filter(|it| it.exists()) {
        println!("cargo:rerun-if-changed={}", path.display());
    }
    println!("cargo:rustc-link-search=native={folder}");
    println!("cargo:rustc-link-lib=static=tcpclkit");
}
