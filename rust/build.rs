//! Finds the archive `libmensorique_c.a`: in the folder that `MENSORIQUE_LIB_DIR` names, or in the repository's `target/native`. A folder that is not named by
//! its full path counts from this crate's folder, wherever cargo was called. Without the archive the crate can be checked (`cargo check`) but not linked.
//! Where `MENSORIQUE_UNPROVED` is set, it is `libmensorique_c-unproved.a`, which is for evaluation, and a warning says so.
use std::env;
use std::path::PathBuf;

const VARIABLE: &str = "MENSORIQUE_LIB_DIR";
const UNPROVED: &str = "MENSORIQUE_UNPROVED";

fn main() {
    println!("cargo:rerun-if-env-changed={VARIABLE}");
    println!("cargo:rerun-if-env-changed={UNPROVED}");
    let unproved = env::var_os(UNPROVED).is_some_and(|set| !set.is_empty());
    let (library, flag) = if unproved {
        ("mensorique_c-unproved", "--unproved ")
    } else {
        ("mensorique_c", "")
    };
    let file = format!("lib{library}.a");
    let own = PathBuf::from(env::var_os("CARGO_MANIFEST_DIR").expect("cargo sets it"));
    let named = env::var_os(VARIABLE).filter(|named| !named.is_empty());
    let folder = match &named {
        Some(named) => own.join(named),
        None => own.join("../target/native"),
    };
    // The shortest way there, where it is there.
    let folder = folder.canonicalize().unwrap_or(folder);
    let archive = folder.join(&file);
    println!("cargo:rerun-if-changed={}", archive.display());
    if !archive.is_file() {
        let how = match &named {
            Some(named) if PathBuf::from(named).is_relative() => format!(
                "{VARIABLE} is {}, which counts from {}: give the full path, or one from there",
                named.to_string_lossy(),
                own.display()
            ),
            Some(_) => format!("name the folder that holds {file} in {VARIABLE}"),
            None => format!(
                "make it by `bin/native-staticlib {flag}mensorique_c` at the top of the repository, \
                 or name the folder that holds {file} in {VARIABLE}"
            ),
        };
        println!("cargo:warning=there is no {}: {how}", archive.display());
    } else if unproved {
        println!(
            "cargo:warning={file} is linked, which is compiled without proof: {UNPROVED} is set"
        );
    }
    println!("cargo:rustc-env=MENSORIQUE_ARCHIVE={}", archive.display());
    println!("cargo:rustc-link-search=native={}", folder.display());
    println!("cargo:rustc-link-lib=static={library}");
}
