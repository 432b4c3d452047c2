//! The folder of the library that the build script of vlm-sys looks for.

use std::path::Path;
use std::process::Command;

/// A relative path would be one below the folder of vlm-sys.
#[test]
fn a_relative_prefix_is_refused() {
    let checked = Command::new(env!("CARGO"))
        .args(["check", "--offline", "--target-dir"])
        .arg(env!("CARGO_TARGET_TMPDIR"))
        .current_dir(Path::new(env!("CARGO_MANIFEST_DIR")).join("vlm-sys"))
        .env("VLM_PREFIX", "prefix")
        .output()
        .expect("cargo");
    let told = String::from_utf8_lossy(&checked.stderr);
    assert!(
        !checked.status.success() && told.contains("an absolute path"),
        "{told}"
    );
}
