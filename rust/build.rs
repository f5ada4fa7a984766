//! Links the engine's archive `libnezgrak.a`, from the folder that the environment variable `NEZGRAK_LIB_DIR` names or
//! else from the repository's `target/staticlib`. Where `NEZGRAK_BEFORE` names the archive of another commit, the bench
//! has that one too.

use std::env;
use std::path::{Path, PathBuf};
use std::process::{exit, Command};

/// What an archive exports, without the `nezgrak_` that all begin with.
const CALLS: [&str; 7] =
    ["contract", "contract_with_c", "delay", "run_tiles", "run_tiles_with_c", "state", "state_with_c"];

fn main() {
    println!("cargo:rerun-if-env-changed=NEZGRAK_LIB_DIR");
    let folder = match env::var_os("NEZGRAK_LIB_DIR") {
        Some(named) => PathBuf::from(named),
        None => PathBuf::from(env!("CARGO_MANIFEST_DIR")).join("../target/staticlib"),
    };
    let archive = folder.join("libnezgrak.a");
    println!("cargo:rerun-if-changed={}", archive.display());
    if !archive.is_file() {
        eprintln!("{} is missing: `make archive`, in the repository, makes it", archive.display());
        exit(1);
    }
    println!("cargo:rustc-link-search=native={}", folder.display());
    println!("cargo:rustc-link-lib=static=nezgrak");
    link_before();
}

/// The archive before goes to the bench alone, which is told by the cfg `nezgrak_before`.
fn link_before() {
    println!("cargo:rerun-if-env-changed=NEZGRAK_BEFORE");
    println!("cargo:rustc-check-cfg=cfg(nezgrak_before)");
    let Some(archive) = env::var_os("NEZGRAK_BEFORE").filter(|named| !named.is_empty()).map(PathBuf::from) else {
        return;
    };
    println!("cargo:rerun-if-changed={}", archive.display());
    if !archive.is_file() {
        eprintln!("{}, the archive before, is missing", archive.display());
        exit(1);
    }
    let object = PathBuf::from(env::var_os("OUT_DIR").expect("cargo names a folder")).join("before.o");
    rename_calls(&archive, &object);
    println!("cargo:rustc-link-arg-benches={}", object.display());
    println!("cargo:rustc-cfg=nezgrak_before");
}

/// One object of all that the archive has: its calls begin with `before_`, and no other name of it is seen outside, so
/// that none of its functions can be taken for one of the archive now, nor the other way round.
fn rename_calls(archive: &Path, object: &Path) {
    run(Command::new("ld").args(["-r", "--whole-archive"]).arg(archive).arg("-o").arg(object));
    let mut rename = Command::new("objcopy");
    for call in CALLS {
        rename.arg(format!("--redefine-sym=nezgrak_{call}=before_nezgrak_{call}"));
        rename.arg(format!("--keep-global-symbol=before_nezgrak_{call}"));
    }
    run(rename.arg(object));
}

fn run(command: &mut Command) {
    match command.status() {
        Ok(status) if status.success() => {}
        other => {
            eprintln!("{command:?} ended with {other:?}");
            exit(1);
        }
    }
}
