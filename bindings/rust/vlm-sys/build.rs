//! Links the static library: VLM_PREFIX/lib/libvlm.a, where the environment variable VLM_PREFIX is the absolute path of
//! the PREFIX of `./vlm install PREFIX`, else that of /usr/local, else that of Debian's package libvlm-dev. Without the
//! library the crates can be checked, linted and documented, and not linked.

use std::env;
use std::path::PathBuf;

/// Where the library is looked for, if VLM_PREFIX names no folder.
const FOLDERS: [&str; 3] = ["/usr/local/lib", "/usr/lib/x86_64-linux-gnu", "/usr/lib"];

fn main() {
    println!("cargo:rerun-if-env-changed=VLM_PREFIX");
    let folders = match env::var_os("VLM_PREFIX").map(PathBuf::from) {
        // (cargo does not tell this script the folder where it was called)
        Some(prefix) if prefix.is_relative() => {
            panic!("VLM_PREFIX is {prefix:?}, and has to be an absolute path")
        }
        Some(prefix) => vec![prefix.join("lib")],
        None => FOLDERS.iter().map(PathBuf::from).collect(),
    };
    if let Some(folder) = folders.iter().find(|it| it.join("libvlm.a").is_file()) {
        println!("cargo:rerun-if-changed={}/libvlm.a", folder.display());
        println!("cargo:rustc-link-search=native={}", folder.display());
        println!("cargo:rustc-link-lib=static=vlm");
    } else if env::var_os("DOCS_RS").is_none() {
        // (a file that is not there has this script run again at each build)
        println!("cargo:rerun-if-changed={}/libvlm.a", folders[0].display());
        println!(
            "cargo:warning={}/libvlm.a is not there, so nothing can be linked: install the package libvlm-dev, or run \
             ./vlm install PREFIX and set VLM_PREFIX",
            folders[0].display()
        );
    }
}
