// Where renet's own source is: the environment variable RENET names its folder, src or the one above;
// without it, that of the documents beside the repository.
use std::path::PathBuf;

fn main() {
    println!("cargo:rerun-if-env-changed=RENET");
    let given = std::env::var("RENET").map(PathBuf::from);
    let beside = PathBuf::from(env!("CARGO_MANIFEST_DIR")).join("../../../shared/docs/src");
    let dir = given.unwrap_or(beside);
    let found = [dir.join("src"), dir.clone()]
        .into_iter()
        .find(|d| d.join("packet.rs").is_file());
    let Some(dir) = found.and_then(|d| d.canonicalize().ok()) else {
        panic!("renet's source isn't at {}: set RENET to its folder", dir.display());
    };
    for file in [
        "packet.rs",
        "error.rs",
        "channel/reliable.rs",
        "channel/unreliable.rs",
        "channel/slice_constructor.rs",
    ] {
        assert!(dir.join(file).is_file(), "{} isn't in {}", file, dir.display());
        println!("cargo:rerun-if-changed={}", dir.join(file).display());
    }
    println!("cargo:rustc-env=RENET_SOURCE={}", dir.display());
}
