//! Finds libxurbalenz.a: in XURBALENZ_LIB_DIR, else where the repository's `tools/archive` leaves the one for the machine that is built for. Says in words what is
//! wrong where it is not there, or is for another machine. Documentation is built without one (DOCS_RS, as docs.rs sets it).
use std::{env, fs, path::PathBuf, process::exit};

/// The name that `tools/archive --list` has for what is built for.
fn target() -> Option<&'static str> {
    let triple = env::var("TARGET").unwrap_or_default();
    let arch = triple.split('-').next().unwrap_or_default();
    Some(match (arch, triple.contains("linux")) {
        ("x86_64", true) => "x86_64-linux",
        ("aarch64", true) => "aarch64-linux",
        ("aarch64", false) => "aarch64-none",
        ("armv7", true) => "armv7-linux",
        ("armv7a", false) => "armv7a-none",
        ("thumbv7em", _) => "thumbv7em-none",
        _ => return None,
    })
}

/// The machine of an archive's first object: ELF's own number (62 x86-64, 183 64-bit Arm, 40 32-bit Arm).
fn machine(archive: &[u8]) -> Option<u16> {
    let object = archive.windows(4).position(|four| four == b"\x7fELF")?;
    let low = *archive.get(object + 18)?;
    let high = *archive.get(object + 19)?;
    Some(u16::from_le_bytes([low, high]))
}

fn word(machine: u16) -> String {
    match machine {
        62 => "x86_64".into(),
        183 => "aarch64".into(),
        40 => "arm".into(),
        other => format!("machine {other} of ELF's list"),
    }
}

fn fail(says: String) -> ! {
    eprintln!("xurbalenz: {says}");
    exit(1);
}

fn main() {
    println!("cargo:rerun-if-env-changed=XURBALENZ_LIB_DIR");
    println!("cargo:rerun-if-env-changed=DOCS_RS");
    if env::var_os("DOCS_RS").is_some() {
        return;
    }
    let here = PathBuf::from(env::var_os("CARGO_MANIFEST_DIR").expect("cargo sets it"));
    let name = target();
    let dir = match (env::var_os("XURBALENZ_LIB_DIR"), name) {
        (Some(dir), _) => PathBuf::from(dir),
        (None, Some("x86_64-linux") | None) => here.join("../../target/staticlib"),
        (None, Some(name)) => here.join("../../target/staticlib").join(name),
    };
    let make = match name {
        Some("x86_64-linux") => "Make it with `tools/archive`".into(),
        Some(name) => format!("Make it with `tools/archive --target {name}`"),
        None => "No archive of `tools/archive --list` is for this machine".into(),
    };
    let archive = dir.join("libxurbalenz.a");
    println!("cargo:rerun-if-changed={}", archive.display());
    let Ok(bytes) = fs::read(&archive) else {
        fail(format!("{} is not there. {make}, or name its folder in XURBALENZ_LIB_DIR.", archive.display()));
    };
    let (built, wanted) = (machine(&bytes).map_or("no machine at all".into(), word), env::var("CARGO_CFG_TARGET_ARCH").unwrap_or_default());
    if built != wanted {
        fail(format!("{} is for {built}, and this build is for {wanted}. {make}, or name its folder in XURBALENZ_LIB_DIR.", archive.display()));
    }
    println!("cargo:rustc-link-search=native={}", dir.display());
    println!("cargo:rustc-link-lib=static=xurbalenz");
}
