//! Finds the Rafttwine library: the archive that RAFTTWINE_ARCHIVE names, or what tools/shared-library made in the clone around
//! this crate, or what pkg-config knows. Documentation and checks need no library, so nothing found is no error here:
//! src/linking.rs says it where something is to be linked.

use std::env;
use std::path::{Path, PathBuf};
use std::process::Command;

const ARCHIVE: &str = "RAFTTWINE_ARCHIVE";
const SHARED: &str = "RAFTTWINE_SHARED";
const WHENCE: &str = "In a clone of Rafttwine, tools/shared-library makes the library and tools/install installs it.";

/// What is linked: the file, and rustc's word for its kind.
struct Library {
    file: PathBuf,
    kind: &'static str,
}

fn main() {
    for variable in [ARCHIVE, SHARED, "PKG_CONFIG_PATH", "PKG_CONFIG_LIBDIR", "PATH"] {
        println!("cargo:rerun-if-env-changed={variable}");
    }
    println!("cargo:rerun-if-changed=build.rs");
    match find().and_then(link) {
        Ok(()) => {}
        Err(sentence) => say_when_linked(&sentence),
    }
}

fn find() -> Result<Library, String> {
    let shared = env::var_os(SHARED).map_or(false, |value| !value.is_empty() && value != "0");
    match env::var_os(ARCHIVE) {
        Some(_) if shared => {
            Err(format!("{ARCHIVE} names an archive and {SHARED} asks for the shared library: set one of the two."))
        }
        Some(named) => named_archive(PathBuf::from(named)),
        None => in_clone_or_installed(shared),
    }
}

fn named_archive(file: PathBuf) -> Result<Library, String> {
    let whole = file.canonicalize().map_err(|error| format!("{ARCHIVE} names {}: {error}. {WHENCE}", file.display()))?;
    Ok(Library { file: whole, kind: "static" })
}

fn in_clone_or_installed(shared: bool) -> Result<Library, String> {
    let (name, kind) = if shared { ("librafttwine.so", "dylib") } else { ("librafttwine.a", "static") };
    let crate_folder = PathBuf::from(env::var_os("CARGO_MANIFEST_DIR").unwrap_or_default());
    let made = crate_folder.ancestors().nth(2).unwrap_or(&crate_folder).join("target/lib").join(name);
    if made.is_file() {
        return Ok(Library { file: made, kind });
    }
    let file = installed(name).map_err(|reason| {
        // A file that is not there has the search made anew each time.
        println!("cargo:rerun-if-changed={}", made.display());
        format!("{name} was not found: {ARCHIVE} is not set, {} is not there, and {reason}. {WHENCE}", made.display())
    })?;
    Ok(Library { file, kind })
}

/// A file in the folder of libraries of a version that goes with this crate; or why there is none.
fn installed(name: &str) -> Result<PathBuf, String> {
    let least = env!("CARGO_PKG_VERSION");
    let major: u32 = env!("CARGO_PKG_VERSION_MAJOR").parse().unwrap_or_default();
    let next = major + 1;
    let version = pkg_config("--modversion", "rafttwine")?.ok_or("pkg-config knows no rafttwine")?;
    pkg_config("--exists", &format!("rafttwine >= {least}, rafttwine < {next}"))?
        .ok_or_else(|| format!("pkg-config knows rafttwine {version}, while {least} or a later {major} is needed"))?;
    let folder = pkg_config("--variable=libdir", "rafttwine")?.unwrap_or_default();
    let file = Path::new(&folder).join(name);
    match file.is_file() {
        true => Ok(file),
        false => Err(format!("{}, where pkg-config leads, is not there", file.display())),
    }
}

/// What pkg-config prints; nothing where it says no.
fn pkg_config(what: &str, of: &str) -> Result<Option<String>, String> {
    let done =
        Command::new("pkg-config").args([what, of]).output().map_err(|error| format!("pkg-config cannot be run: {error}"))?;
    let printed = String::from_utf8_lossy(&done.stdout).trim().to_string();
    Ok(done.status.success().then_some(printed))
}

fn link(library: Library) -> Result<(), String> {
    let Library { file, kind } = library;
    let extension = if kind == "static" { ".a" } else { ".so" };
    let name = file.file_name().and_then(|name| name.to_str()?.strip_prefix("lib")?.strip_suffix(extension));
    let (folder, name) =
        file.parent().zip(name).ok_or_else(|| format!("{ARCHIVE} names {}, and is to name a file lib*.a.", file.display()))?;
    println!("cargo:rerun-if-changed={}", file.display());
    // A folder that is told from here has to be found from elsewhere too.
    let folder = folder.canonicalize().map_err(|error| format!("{}: {error}.", folder.display()))?;
    println!("cargo:rustc-link-search=native={}", folder.display());
    println!("cargo:rustc-link-lib={kind}={name}");
    Ok(())
}

/// Hands the sentence to src/linking.rs, which quotes it.
fn say_when_linked(sentence: &str) {
    let quotable: String = sentence.chars().map(|letter| if matches!(letter, '"' | '\\' | '\n') { '\'' } else { letter }).collect();
    println!("cargo:rustc-cfg=rafttwine_not_found");
    println!("cargo:rustc-env=RAFTTWINE_NOT_FOUND={quotable}");
}
