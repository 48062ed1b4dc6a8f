//! Where `build.rs` looks for the archive, tried by building the crate anew from another folder.
use std::fs;
use std::path::{Path, PathBuf};
use std::process::{Command, Output};

/// A folder that has the archive, under this name.
fn lent(folder: &str, archive: &str) -> PathBuf {
    let folder = Path::new(env!("CARGO_TARGET_TMPDIR")).join(folder);
    fs::create_dir_all(&folder).unwrap();
    fs::copy(env!("MENSORIQUE_ARCHIVE"), folder.join(archive)).unwrap();
    folder.canonicalize().unwrap()
}

/// The way from the crate's folder to another one.
fn from_the_crate(folder: &Path) -> PathBuf {
    let own = Path::new(env!("CARGO_MANIFEST_DIR"))
        .canonicalize()
        .unwrap();
    let up: PathBuf = own.components().skip(1).map(|_| "..").collect();
    up.join(folder.strip_prefix("/").unwrap())
}

fn cargo(command: &str, called_in: &Path, named: &Path, unproved: &str) -> Output {
    let target = Path::new(env!("CARGO_TARGET_TMPDIR")).join("build");
    Command::new(env!("CARGO"))
        .args([command, "--offline", "--lib", "--manifest-path"])
        .arg(Path::new(env!("CARGO_MANIFEST_DIR")).join("Cargo.toml"))
        .current_dir(called_in)
        .env("CARGO_TARGET_DIR", target)
        .env("MENSORIQUE_LIB_DIR", named)
        .env("MENSORIQUE_UNPROVED", unproved)
        .output()
        .unwrap()
}

/// The library holds the archive, so that it is not built where the archive is not found.
#[test]
fn a_relative_folder_counts_from_the_crate() {
    let folder = lent("lent", "libmensorique_c.a");
    let built = |called_in: &Path, named: &Path| cargo("build", called_in, named, "");
    let anywhere = Path::new(env!("CARGO_TARGET_TMPDIR"));
    assert!(built(anywhere, &folder).status.success());
    assert!(built(anywhere, &from_the_crate(&folder)).status.success());

    // Counted from where cargo is called it would be found.
    let output = built(folder.parent().unwrap(), Path::new("lent"));
    assert!(!output.status.success());
    let said = String::from_utf8(output.stderr).unwrap();
    let own = env!("CARGO_MANIFEST_DIR");
    let told = format!("there is no {own}/lent/libmensorique_c.a: MENSORIQUE_LIB_DIR is lent, which counts from {own}: ");
    assert!(said.contains(&told), "{said}");

    // Without the archive the crate can still be checked.
    let output = cargo("check", anywhere, Path::new("nowhere"), "");
    assert!(output.status.success());
    let said = String::from_utf8(output.stderr).unwrap();
    assert!(said.contains("which counts from"), "{said}");
}

/// An archive without proof is linked only where that is asked for, and a warning says so.
#[test]
fn an_archive_without_proof_is_asked_for() {
    let folder = lent("unproved", "libmensorique_c-unproved.a");
    let built = |unproved| cargo("build", &folder, &folder, unproved);
    let said = |output: &Output| String::from_utf8(output.stderr.clone()).unwrap();
    let asked = built("yes");
    assert!(asked.status.success(), "{}", said(&asked));
    let told = "libmensorique_c-unproved.a is linked, which is compiled without proof";
    assert!(said(&asked).contains(told), "{}", said(&asked));
    let not_asked = built("");
    assert!(!not_asked.status.success());
    let told = format!("there is no {}/libmensorique_c.a", folder.display());
    assert!(said(&not_asked).contains(&told), "{}", said(&not_asked));
}
