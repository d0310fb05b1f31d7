//! Links the archive of the proved operations to the programs that ask it, and
//! tells them which of the operations declared in src/archive.rs it has. The
//! archive is at PAY_C, or where reference/archive puts it. What is no archive,
//! or one of another processor, is passed over: everything else is built
//! without it.

use std::io::ErrorKind;
use std::path::{Path, PathBuf};

/// A variable that cargo sets.
fn told(name: &str) -> String {
    std::env::var(name).expect("set by cargo")
}

/// The members of an `ar` archive, name and bytes.
fn members(archive: &[u8]) -> Option<Vec<(&str, &[u8])>> {
    let mut rest = archive.strip_prefix(b"!<arch>\n")?;
    let mut members = Vec::new();
    while !rest.is_empty() {
        let (head, behind) = rest.split_at_checked(60)?;
        let name = str::from_utf8(&head[..16]).ok()?.trim_end();
        let length: usize = str::from_utf8(&head[48..58]).ok()?.trim_end().parse().ok()?;
        members.push((name, behind.get(..length)?));
        // A member begins at an even place.
        rest = behind.get(length.next_multiple_of(2)..).unwrap_or_default();
    }
    Some(members)
}

/// The names that an archive's index lists: how many, a place for each, and
/// each name with a zero behind it.
fn indexed(index: &[u8]) -> Option<Vec<String>> {
    let (count, behind) = index.split_first_chunk()?;
    let count = u32::from_be_bytes(*count) as usize;
    let names = behind.get(4 * count..)?.split(|&byte| byte == 0).take(count);
    Some(names.map(|name| String::from_utf8_lossy(name).into()).collect())
}

/// The processor that an object file of 64 bits is for, by ELF's number.
fn processor(object: &[u8]) -> Option<u16> {
    let number = object.strip_prefix(b"\x7fELF\x02\x01")?.get(12..14)?;
    Some(u16::from_le_bytes(number.try_into().ok()?))
}

/// The functions that an archive offers to this processor, or why there are none.
fn offered(archive: &Path) -> Result<Vec<String>, &'static str> {
    let ours = match told("CARGO_CFG_TARGET_ARCH").as_str() {
        "x86_64" => 62,
        "aarch64" => 183,
        _ => return Err("has nothing for this processor"),
    };
    let bytes = std::fs::read(archive).map_err(|error| match error.kind() {
        ErrorKind::NotFound => "is not there",
        _ => "cannot be read",
    })?;
    let members = members(&bytes).ok_or("is no archive")?;
    let index = members.iter().find(|(name, _)| *name == "/").and_then(|(_, index)| indexed(index));
    let processors: Vec<u16> = members.iter().filter_map(|(_, bytes)| processor(bytes)).collect();
    match processors.iter().all(|&processor| processor == ours) {
        _ if processors.is_empty() => Err("has no objects"),
        true => index.ok_or("has no index"),
        false => Err("is for another processor"),
    }
}

/// Where reference/archive puts what it makes.
fn usual(root: &Path) -> PathBuf {
    root.join("crates/pay_c/out/libpay_c.a")
}

/// The names of the declared operations.
fn declarations(text: &str) -> impl Iterator<Item = String> {
    let names =
        text.lines().filter_map(|line| line.trim().strip_prefix("fn pay_")?.split_once('('));
    names.map(|(name, _)| format!("pay_{name}"))
}

fn main() {
    let here = PathBuf::from(told("CARGO_MANIFEST_DIR"));
    let root = here.parent().expect("the project's root");
    let declared = here.join("src/archive.rs");
    let text = std::fs::read_to_string(&declared).expect("src/archive.rs");
    let operations: Vec<String> = declarations(&text).collect();
    println!("cargo::rustc-check-cfg=cfg({})", operations.join(", "));

    let given = std::env::var_os("PAY_C").filter(|path| !path.is_empty());
    let archive = given.map_or_else(|| usual(root), PathBuf::from);
    println!("cargo::rerun-if-env-changed=PAY_C");
    println!("cargo::rerun-if-changed={}", archive.display());
    println!("cargo::rerun-if-changed={}", declared.display());
    let offered = offered(&archive);
    println!("cargo::rustc-env=ARCHIVE={}", archive.display());
    println!(
        "cargo::rustc-env=ARCHIVE_FAULT={}",
        offered.as_ref().err().unwrap_or(&"has no operation")
    );
    if let Ok(offered) = offered {
        println!("cargo::rustc-link-arg-bins={}", archive.display());
        for operation in operations.iter().filter(|operation| offered.contains(operation)) {
            println!("cargo::rustc-cfg={operation}");
        }
    }
}
