//! Links the library as an archive, so that a program runs wherever it is put: a search path for a shared library would not
//! reach the programs of crates that depend on this one.
//!
//! The archive is that of the folder `JEANZIRCON_LIB_DIR`. Without that it is the first of these: in the crate's own `lib`, which
//! a released crate has; where `pkg-config` says for this version; in the checkout that the crate lies in; in the prefix that it
//! lies in. The Standard's lists are those of the same crate, checkout or prefix, or of that which the crate lies in.
//!
//! With `DOCS_RS` in the environment there need be no archive: `DOCS_RS=1 cargo doc`.

use std::path::{Path, PathBuf};
use std::process::Command;
use std::{env, fs};

const ARCHIVE: &str = "libjeanzircon.a";

/// Where a crate in a folder of this name finds the library beside itself.
const BESIDE: [(&str, &str); 2] = [
    ("examples/rust", "../../out"),
    ("share/jeanzircon/rust", "../../../lib"),
];

/// The folder of the crate.
fn here() -> PathBuf {
    env::var_os("CARGO_MANIFEST_DIR")
        .expect("cargo says where the crate is")
        .into()
}

/// The folder that `pkg-config` names, which writes a backslash before a space.
fn packaged() -> Option<PathBuf> {
    let program = env::var_os("PKG_CONFIG").unwrap_or_else(|| "pkg-config".into());
    let package = concat!("jeanzircon = ", env!("CARGO_PKG_VERSION"));
    let said = Command::new(program)
        .args(["--variable=libdir", package])
        .output()
        .ok()?;
    let folder = String::from_utf8(said.stdout).ok()?;
    let folder = folder.trim_end().replace("\\ ", " ");
    said.status.success().then(|| folder.into())
}

/// The folders in which the archive is looked for.
fn folders() -> Vec<PathBuf> {
    if let Some(folder) = env::var_os("JEANZIRCON_LIB_DIR") {
        return vec![folder.into()];
    }
    let here = here();
    let released = here.join("lib");
    if released.join(ARCHIVE).is_file() {
        return vec![released];
    }
    let beside = BESIDE.iter().filter(|(name, _)| here.ends_with(name));
    packaged()
        .into_iter()
        .chain(beside.map(|(_, place)| here.join(place)))
        .collect()
}

/// The folder of the Standard's lists.
fn lists(archive: Option<&Path>) -> PathBuf {
    let here = here();
    let beside = [here.join("../../data"), here.join("..")];
    let places: Vec<_> = archive
        .into_iter()
        .flat_map(|it| [it.join("../data"), it.join("../share/jeanzircon")])
        .chain(beside)
        .collect();
    let mut found = places.iter().filter_map(|it| fs::canonicalize(it).ok());
    found
        .find(|it| it.join("entities.json").is_file())
        .unwrap_or_else(|| panic!("no entities.json in {places:?}"))
}

/// The Standard's table: in its flat form, as the header with the lists has it, which is in the folder of the archive or in the prefix, or
/// else as JSON.
fn table(archive: Option<&Path>, lists: &Path) -> Vec<u8> {
    let places = ["jeanzircon_data.h", "../include/jeanzircon_data.h"];
    let headers = archive
        .into_iter()
        .flat_map(|it| places.map(|place| it.join(place)));
    let mut texts = headers.filter_map(|it| fs::read_to_string(it).ok());
    let flat = texts.find_map(|text| {
        let (_, rest) = text.split_once("jz_standard_entities[] = {")?;
        let (bytes, _) = rest.split_once('}')?;
        let numbers = bytes.split(',').map(str::trim).filter(|it| !it.is_empty());
        numbers.map(|it| it.parse().ok()).collect()
    });
    flat.unwrap_or_else(|| fs::read(lists.join("entities.json")).expect("entities.json is read"))
}

fn main() {
    for name in [
        "DOCS_RS",
        "JEANZIRCON_LIB_DIR",
        "PKG_CONFIG",
        "PKG_CONFIG_PATH",
        "PKG_CONFIG_LIBDIR",
    ] {
        println!("cargo:rerun-if-env-changed={name}");
    }
    let folders = folders();
    let mut whole = folders.iter().filter_map(|it| fs::canonicalize(it).ok());
    let archive = whole.find(|it| it.join(ARCHIVE).is_file());
    match &archive {
        Some(folder) => {
            println!("cargo:rustc-link-search=native={}", folder.display());
            println!("cargo:rustc-link-lib=static=jeanzircon");
            println!("cargo:rerun-if-changed={}", folder.join(ARCHIVE).display());
        }
        None if env::var_os("DOCS_RS").is_some() => {}
        None => panic!("no {ARCHIVE} in {folders:?}: JEANZIRCON_LIB_DIR may name its folder"),
    }
    let lists = lists(archive.as_deref());
    println!("cargo:rustc-env=JEANZIRCON_LISTS={}", lists.display());
    let made = PathBuf::from(env::var_os("OUT_DIR").expect("cargo names a folder"));
    fs::write(made.join("entities"), table(archive.as_deref(), &lists)).expect("a file is written");
}
