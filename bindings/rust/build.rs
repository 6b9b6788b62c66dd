//! Finds the proved library and links it.
//!
//! - `AFSUNGAR_LIBRARY` is the path of a built one, `lib*.a`, for the processor that is built for; or it is `none`, and nothing is
//!   linked, which is enough for `cargo check` and `cargo doc`.
//! - Otherwise, inside the repository, `compare/native-lib` makes it, or copies the one that it keeps.
use std::env;
use std::error::Error;
use std::fs;
use std::path::{Path, PathBuf};
use std::process::{exit, Command};

type Outcome<T> = Result<T, Box<dyn Error>>;

const ADVICE: &str = "set AFSUNGAR_LIBRARY to the absolute path of a built libafsungar.a, or build inside Afsungar's repository with \
                      the Rattle kit's command `rt` on the PATH, or set AFSUNGAR_LIBRARY=none for `cargo check` and `cargo doc` alone";

fn main() {
    println!("cargo:rerun-if-env-changed=AFSUNGAR_LIBRARY");
    println!("cargo:rerun-if-env-changed=DOCS_RS");
    // Documentation alone needs no library.
    if env::var_os("DOCS_RS").is_some() {
        return;
    }
    if let Err(why) = find() {
        eprintln!("afsungar: {why}");
        exit(1);
    }
}

fn find() -> Outcome<()> {
    match env::var_os("AFSUNGAR_LIBRARY") {
        Some(none) if none == "none" => {
            println!("cargo:rustc-env=AFSUNGAR_LINKED=none");
            Ok(())
        }
        Some(path) if !path.is_empty() => link(&given(PathBuf::from(path))?),
        _ => link(&made()?),
    }
}

fn given(library: PathBuf) -> Outcome<PathBuf> {
    let shown = library.display();
    // A relative path would be taken from this folder, which is not where the caller stands.
    if library.is_relative() {
        return refuse(format!("AFSUNGAR_LIBRARY has to be an absolute path, and is {shown}"));
    }
    if !library.is_file() {
        return refuse(format!("AFSUNGAR_LIBRARY names {shown}, which is no file: {ADVICE}"));
    }
    println!("cargo:rerun-if-changed={shown}");
    let archive =
        fs::read(&library).map_err(|why| format!("AFSUNGAR_LIBRARY names {shown}, which cannot be read: {why}"))?;
    let target = env::var("CARGO_CFG_TARGET_ARCH")?;
    match machine(&archive) {
        None => {
            refuse(format!("AFSUNGAR_LIBRARY names {shown}, which is no archive of ELF objects: name a libafsungar.a"))
        }
        Some(machine) if due(&target).is_some_and(|due| due != machine) => {
            let other = name(machine);
            refuse(format!("AFSUNGAR_LIBRARY names {shown}, which is for {other}: name one for {target}"))
        }
        _ => Ok(library),
    }
}

fn refuse<T>(why: String) -> Outcome<T> {
    Err(why.into())
}

/// The number by which ELF knows a processor that the library is made for.
fn due(target: &str) -> Option<u16> {
    match target {
        "x86_64" => Some(62),
        "aarch64" => Some(183),
        _ => None,
    }
}

fn name(machine: u16) -> String {
    match machine {
        62 => "x86_64".into(),
        183 => "aarch64".into(),
        _ => format!("another processor (ELF machine {machine})"),
    }
}

/// The processor of an archive's first ELF object. A member has a header of 60 bytes, with its size in decimal at 48, and stands at
/// an even offset; an object has its machine at 18, in the byte order that its byte 5 tells.
fn machine(archive: &[u8]) -> Option<u16> {
    let mut rest = archive.strip_prefix(b"!<arch>\n")?;
    while rest.len() > 60 {
        let size: usize = std::str::from_utf8(&rest[48..58]).ok()?.trim().parse().ok()?;
        let member = &rest[60..];
        if member.len() >= 20 && size >= 20 && member.starts_with(b"\x7fELF") {
            let order = if member[5] == 2 { u16::from_be_bytes } else { u16::from_le_bytes };
            return Some(order([member[18], member[19]]));
        }
        rest = member.get(size.checked_add(size % 2)?..)?;
    }
    None
}

fn made() -> Outcome<PathBuf> {
    let here = fs::canonicalize(env::var("CARGO_MANIFEST_DIR")?)?;
    let out = PathBuf::from(env::var("OUT_DIR")?).join("libafsungar.a");
    let processor = env::var("CARGO_CFG_TARGET_ARCH")?;
    // The first folder above, whichever it is: `cargo package` builds below target/.
    let is_root = |folder: &&Path| folder.join("crates.txt").is_file() && folder.join("crates/export").is_dir();
    let root = here
        .ancestors()
        .find(is_root)
        .ok_or_else(|| format!("the library is not there, nor Afsungar's repository, which makes it: {ADVICE}"))?;
    if due(&processor).is_none() || env::var("CARGO_CFG_TARGET_OS")? != "linux" {
        return refuse(format!(
            "the library is made for Linux on x86_64 and aarch64; for {}, set AFSUNGAR_LIBRARY to the absolute path of one \
             that is compiled for it",
            env::var("TARGET")?
        ));
    }
    let script = root.join("compare/native-lib");
    for path in [&root.join("crates.txt"), &script] {
        println!("cargo:rerun-if-changed={}", path.display());
    }
    // Of each crate all but out/, which every check of the prover changes.
    for folder in fs::read_dir(root.join("crates"))? {
        for part in fs::read_dir(folder?.path())? {
            let part = part?;
            if part.file_name() != "out" {
                println!("cargo:rerun-if-changed={}", part.path().display());
            }
        }
    }
    run(Command::new(script).args(["--for", &processor, "export"]).arg(&out).current_dir(root))?;
    Ok(out)
}

/// Runs a command of the repository. The last lines that it says are shown if it fails.
fn run(command: &mut Command) -> Outcome<()> {
    let program = command.get_program().to_string_lossy().into_owned();
    let output = command.output().map_err(|why| format!("{program} cannot be run ({why}): {ADVICE}"))?;
    if output.status.success() {
        return Ok(());
    }
    let said = [output.stdout, output.stderr].concat();
    let said = String::from_utf8_lossy(&said);
    let lines: Vec<&str> = said.lines().collect();
    let last = lines[lines.len().saturating_sub(20)..].join("\n");
    refuse(format!("{program} failed, so {ADVICE}; it said:\n{last}"))
}

fn link(library: &Path) -> Outcome<()> {
    let folder = library.parent().ok_or("the library stands in no folder")?;
    let name = library.file_name().and_then(|name| name.to_str()).unwrap_or_default();
    let Some(name) = name.strip_prefix("lib").and_then(|name| name.strip_suffix(".a")) else {
        return refuse(format!("AFSUNGAR_LIBRARY has to be named lib*.a, and is {}", library.display()));
    };
    println!("cargo:rustc-link-search=native={}", folder.display());
    println!("cargo:rustc-link-lib=static={name}");
    // For the tests of the C header, which are linked with the same.
    println!("cargo:rustc-env=AFSUNGAR_LINKED={}", library.display());
    Ok(())
}
