//! Links the static library: the archive that `STEMLINE_ARCHIVE` names, that of the repository's top folder
//! (`scripts/library`), or the installed one that `pkg-config` finds (`scripts/install`). One of another version
//! than the crate's is refused.

use std::path::{Path, PathBuf};
use std::process::{exit, Command};
use std::{env, fs, str};

const ASKED: &str = "STEMLINE_ARCHIVE";

fn main() {
    println!("cargo:rerun-if-env-changed={ASKED}");
    println!("cargo:rerun-if-env-changed=PKG_CONFIG_PATH");
    let (folder, name) = archive().unwrap_or_else(|words| {
        eprintln!("error: {words}");
        exit(1);
    });
    println!("cargo:rustc-link-search=native={}", folder.display());
    println!("cargo:rustc-link-lib=static={name}");
}

/// The folder of the archive, and its name as a linker takes it.
fn archive() -> Result<(PathBuf, String), String> {
    if let Some(file) = env::var_os(ASKED) {
        return found(Path::new(&file)).unwrap_or_else(|| {
            Err(format!(
                "{}, which {ASKED} names, is missing",
                file.display()
            ))
        });
    }
    let manifest = env::var_os("CARGO_MANIFEST_DIR").ok_or("cargo sets CARGO_MANIFEST_DIR")?;
    let built = Path::new(&manifest).join("../../target/staticlib/libreplica.a");
    // Also while it is missing: it may be built later.
    println!("cargo:rerun-if-changed={}", built.display());
    let installed = || found(&installed()?.join("libstemline.a"));
    found(&built).or_else(installed).unwrap_or_else(|| {
        Err(format!(
            "target/staticlib/libreplica.a is missing; make it with `scripts/library`, run in the repository's \
             top folder, install it (`scripts/install`), or name an archive by {ASKED}"
        ))
    })
}

/// An archive, if it is there: `lib` and `.a` are left out of its name.
fn found(file: &Path) -> Option<Result<(PathBuf, String), String>> {
    file.is_file().then(|| {
        println!("cargo:rerun-if-changed={}", file.display());
        let name = file.file_name().and_then(|name| name.to_str());
        let name = name.and_then(|name| name.strip_prefix("lib")?.strip_suffix(".a"));
        let name = name.ok_or_else(|| format!("{} is not named lib..a", file.display()))?;
        same_version(file)?;
        let folder = file.parent().unwrap_or(Path::new("."));
        Ok((folder.to_path_buf(), name.to_string()))
    })
}

/// Whether an archive has the symbol by whose name it is of the crate's version: the first two numbers.
fn same_version(file: &Path) -> Result<(), String> {
    let number = |name: &str| env::var(name).map_err(|_| format!("cargo sets {name}"));
    let major = number("CARGO_PKG_VERSION_MAJOR")?;
    let minor = number("CARGO_PKG_VERSION_MINOR")?;
    // In an archive's table of symbols each name ends with a zero byte.
    let symbol = format!("stemline_version_{major}_{minor}\0");
    let bytes = fs::read(file).map_err(|error| format!("{}: {error}", file.display()))?;
    let mut places = bytes.windows(symbol.len());
    match places.any(|found| found == symbol.as_bytes()) {
        true => Ok(()),
        false => Err(format!(
            "{} is not of version {major}.{minor}, as this crate is; `scripts/library`, run in the repository's top \
             folder, makes one that is",
            file.display()
        )),
    }
}

/// Where the installed library is, by pkg-config.
fn installed() -> Option<PathBuf> {
    let mut command = Command::new("pkg-config");
    let asked = command
        .args(["--variable=libdir", "stemline"])
        .output()
        .ok()?;
    let folder = str::from_utf8(&asked.stdout).ok()?.trim();
    (asked.status.success() && !folder.is_empty()).then(|| PathBuf::from(folder))
}
