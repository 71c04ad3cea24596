// SPDX-License-Identifier: Apache-2.0
//! Chooses the proved library: the assembly of generated/, here or beside this package in a checkout, which the compiler itself takes in
//! (src/foreign/proved.rs); or with
//! COVRETIN_LIB_DIR the libcovretin.a in that folder, of `make`. With COVRETIN_LIB_DIR=none, and on docs.rs, there is none, which is
//! enough for `cargo check` and `cargo doc`.
//! Its assembly is the file whose sum stands in the verdict beside it, or the build ends.
use std::env;
use std::fs;
use std::path::{Path, PathBuf};
use std::process::{exit, Command};

fn main() {
    println!("cargo:rerun-if-env-changed=COVRETIN_LIB_DIR");
    println!("cargo:rerun-if-env-changed=DOCS_RS");
    println!("cargo:rerun-if-changed=build.rs");
    // (an older cargo warns of this line, and an older compiler asks for no such list)
    if minor_of_rustc() >= 80 {
        println!("cargo:rustc-check-cfg=cfg(covretin_assembly)");
    }
    let folder = env::var("COVRETIN_LIB_DIR").ok().filter(|folder| !folder.is_empty());
    let chosen = match folder.as_deref() {
        _ if env::var_os("DOCS_RS").is_some() => Ok(()),
        Some("none") => Ok(()),
        Some(folder) => link_from(Path::new(folder)),
        None => take_in(),
    };
    if let Err(why) = chosen {
        eprintln!("covretin: {why}");
        exit(1);
    }
}

/// The 95 of "rustc 1.95.0 (..)".
fn minor_of_rustc() -> u32 {
    let rustc = env::var_os("RUSTC").unwrap_or_else(|| "rustc".into());
    let said = Command::new(rustc).arg("--version").output().map(|ran| ran.stdout).unwrap_or_default();
    String::from_utf8_lossy(&said).split('.').nth(1).and_then(|minor| minor.parse().ok()).unwrap_or(0)
}

/// Links the whole library that lies in a folder.
fn link_from(folder: &Path) -> Result<(), String> {
    let library = folder.join("libcovretin.a");
    if !library.is_file() {
        return Err(format!("no {}: 'make' makes it in build/ of a checkout of Covretin", library.display()));
    }
    println!("cargo:rerun-if-changed={}", library.display());
    println!("cargo:rustc-link-search=native={}", folder.display());
    println!("cargo:rustc-link-lib=static=covretin");
    Ok(())
}

/// Has the assembly of this target compiled, where there is one.
fn take_in() -> Result<(), String> {
    let [machine, system, pointer, endian] =
        ["ARCH", "OS", "POINTER_WIDTH", "ENDIAN"].map(|it| env::var(format!("CARGO_CFG_TARGET_{it}")).unwrap_or_default());
    match (machine.as_str(), system.as_str(), pointer.as_str(), endian.as_str()) {
        ("x86_64" | "aarch64", "linux", "64", "little") => {
            println!("cargo:rustc-cfg=covretin_assembly");
            name_folder(&["covretin.s", "covretin_queue.s"].map(|file| format!("{machine}-linux/{file}")))
        }
        _ => Err(format!(
            "there is no proved code for {}, only for x86_64 and aarch64 on Linux. With COVRETIN_LIB_DIR=none 'cargo check' and 'cargo doc' go through",
            env::var("TARGET").unwrap_or_default()
        )),
    }
}

/// Tells the compiler in which folder generated/ is, where its files are those that were proved.
fn name_folder(files: &[String]) -> Result<(), String> {
    let package = PathBuf::from(env::var("CARGO_MANIFEST_DIR").unwrap_or_default());
    let places = [package.join("generated"), package.join("../generated")];
    let found = places.iter().find(|folder| files.iter().all(|file| folder.join(file).is_file()));
    let folder =
        found.ok_or_else(|| format!("no generated/{}, neither in {} nor beside it", files.join(", "), package.display()))?;
    files.iter().try_for_each(|file| compare_sum(&folder.join(file)))?;
    println!("cargo:rustc-env=COVRETIN_GENERATED={}", folder.display());
    Ok(())
}

/// Whether the verdict of proved code has the sum of its file: nothing is known of another.
fn compare_sum(code: &Path) -> Result<(), String> {
    let verdict = code.with_extension("verdict");
    let unread = |path: &Path, why| format!("{} cannot be read: {why}", path.display());
    let said = fs::read_to_string(&verdict).map_err(|why| unread(&verdict, why))?;
    let sum = sum_of(&fs::read(code).map_err(|why| unread(code, why))?);
    let line = format!("{sum}  {}", code.file_name().unwrap_or_default().to_string_lossy());
    println!("cargo:rerun-if-changed={}", code.display());
    println!("cargo:rerun-if-changed={}", verdict.display());
    if !said.lines().any(|it| it == line) {
        return Err(format!("{}: not the file that was proved: its sum is not that of {}", code.display(), verdict.display()));
    }
    Ok(())
}

/// The first 32 bits of the fractional parts of the cube roots of the first 64 primes, and of the square roots of the first eight.
#[rustfmt::skip]
const OF_ROUNDS: [u32; 64] = [
    0x428a2f98, 0x71374491, 0xb5c0fbcf, 0xe9b5dba5, 0x3956c25b, 0x59f111f1, 0x923f82a4, 0xab1c5ed5,
    0xd807aa98, 0x12835b01, 0x243185be, 0x550c7dc3, 0x72be5d74, 0x80deb1fe, 0x9bdc06a7, 0xc19bf174,
    0xe49b69c1, 0xefbe4786, 0x0fc19dc6, 0x240ca1cc, 0x2de92c6f, 0x4a7484aa, 0x5cb0a9dc, 0x76f988da,
    0x983e5152, 0xa831c66d, 0xb00327c8, 0xbf597fc7, 0xc6e00bf3, 0xd5a79147, 0x06ca6351, 0x14292967,
    0x27b70a85, 0x2e1b2138, 0x4d2c6dfc, 0x53380d13, 0x650a7354, 0x766a0abb, 0x81c2c92e, 0x92722c85,
    0xa2bfe8a1, 0xa81a664b, 0xc24b8b70, 0xc76c51a3, 0xd192e819, 0xd6990624, 0xf40e3585, 0x106aa070,
    0x19a4c116, 0x1e376c08, 0x2748774c, 0x34b0bcb5, 0x391c0cb3, 0x4ed8aa4a, 0x5b9cca4f, 0x682e6ff3,
    0x748f82ee, 0x78a5636f, 0x84c87814, 0x8cc70208, 0x90befffa, 0xa4506ceb, 0xbef9a3f7, 0xc67178f2,
];
#[rustfmt::skip]
const OF_NOTHING: [u32; 8] = [
    0x6a09e667, 0xbb67ae85, 0x3c6ef372, 0xa54ff53a, 0x510e527f, 0x9b05688c, 0x1f83d9ab, 0x5be0cd19,
];

/// The SHA-256 sum of some bytes (FIPS 180-4), in hexadecimal digits.
fn sum_of(bytes: &[u8]) -> String {
    let whole = bytes.len() / 64 * 64;
    let mut last = bytes[whole..].to_vec();
    last.push(0x80);
    last.resize(if last.len() > 56 { 120 } else { 56 }, 0);
    last.extend((bytes.len() as u64 * 8).to_be_bytes());
    let state = bytes[..whole].chunks(64).chain(last.chunks(64)).fold(OF_NOTHING, add_block);
    state.iter().map(|word| format!("{word:08x}")).collect()
}

/// The state of the sum with 64 bytes more.
fn add_block(state: [u32; 8], block: &[u8]) -> [u32; 8] {
    let mut words = [0u32; 64];
    for (word, bytes) in words.iter_mut().zip(block.chunks(4)) {
        *word = u32::from_be_bytes(bytes.try_into().unwrap_or_default());
    }
    for at in 16..64 {
        let (early, late) = (words[at - 15], words[at - 2]);
        let early = early.rotate_right(7) ^ early.rotate_right(18) ^ (early >> 3);
        let late = late.rotate_right(17) ^ late.rotate_right(19) ^ (late >> 10);
        words[at] = words[at - 16].wrapping_add(early).wrapping_add(words[at - 7]).wrapping_add(late);
    }
    let [mut a, mut b, mut c, mut d, mut e, mut f, mut g, mut h] = state;
    for (word, of_round) in words.iter().zip(OF_ROUNDS) {
        let turned = e.rotate_right(6) ^ e.rotate_right(11) ^ e.rotate_right(25);
        let first = h.wrapping_add(turned).wrapping_add((e & f) ^ (!e & g)).wrapping_add(of_round).wrapping_add(*word);
        let turned = a.rotate_right(2) ^ a.rotate_right(13) ^ a.rotate_right(22);
        let second = turned.wrapping_add((a & b) ^ (a & c) ^ (b & c));
        (h, g, f, e, d, c, b, a) = (g, f, e, d.wrapping_add(first), c, b, a, first.wrapping_add(second));
    }
    let mut added = [a, b, c, d, e, f, g, h];
    added.iter_mut().zip(state).for_each(|(it, before)| *it = it.wrapping_add(before));
    added
}
