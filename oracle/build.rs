//! Writes `published.rs`, the module tree that brings the published Rust in
//! unchanged under the paths by which its files name each other. Links the port
//! if `PORT_LIBRARY` names the folder of its library.

use std::env;
use std::fs;
use std::path::{Path, PathBuf};

/// Where the published Rust is sought, seen from this package, without `AEC3_RS`.
const DEFAULT_FOLDER: &str = "../../shared/docs/src";

/// The published files of `src/audio_processing/aec3`.
const AEC3: [&str; 10] = [
    "aec3_common",
    "block_buffer",
    "erl_estimator",
    "erle_estimator",
    "fft_buffer",
    "fullband_erle_estimator",
    "render_buffer",
    "signal_dependent_erle_estimator",
    "spectrum_buffer",
    "subband_erle_estimator",
];

fn main() {
    let package = PathBuf::from(env::var_os("CARGO_MANIFEST_DIR").unwrap());
    println!("cargo:rerun-if-env-changed=AEC3_RS");
    println!("cargo:rerun-if-changed=build.rs");
    println!("cargo:rerun-if-changed=src/peek");
    println!("cargo:rerun-if-changed=src/stand_in");

    let text = module_tree(&published_folder(&package), &package.join("src"));
    let out = PathBuf::from(env::var_os("OUT_DIR").unwrap());
    fs::write(out.join("published.rs"), text).expect("published.rs is written");
    link_port(&package);
}

/// Links `libspeed.a` and sets `cfg(port)`, if `PORT_LIBRARY` is set. A relative
/// one counts from this package.
fn link_port(package: &Path) {
    println!("cargo:rerun-if-env-changed=PORT_LIBRARY");
    println!("cargo:rustc-check-cfg=cfg(port)");
    let Some(said) = env::var_os("PORT_LIBRARY") else {
        return;
    };
    let folder = package.join(said);
    let library = folder.join("libspeed.a");
    if !library.is_file() {
        panic!("PORT_LIBRARY: there is no {}", library.display());
    }
    println!("cargo:rerun-if-changed={}", library.display());
    println!("cargo:rustc-link-search=native={}", folder.display());
    println!("cargo:rustc-link-lib=static=speed");
    println!("cargo:rustc-cfg=port");
}

/// The folder that holds the published `src`. A relative `AEC3_RS` counts from
/// this package.
fn published_folder(package: &Path) -> PathBuf {
    let said = env::var_os("AEC3_RS").unwrap_or_else(|| DEFAULT_FOLDER.into());
    let folder = package.join(said);
    match folder.join("src").canonicalize() {
        Ok(src) if src.is_dir() => src,
        _ => panic!(
            "the published Rust is not in {}: set AEC3_RS to the folder that holds its src",
            folder.display()
        ),
    }
}

/// The text of `published.rs`: the published modules and the stand-ins.
fn module_tree(published: &Path, ours: &Path) -> String {
    let config = published_file(published.join("api/config.rs"));
    let stand_in = |name: &str| ours.join("stand_in").join(name);
    let mut aec3 = file_module("block", &stand_in("block.rs"));
    aec3 += &file_module("fft_data", &stand_in("fft_data.rs"));
    for name in AEC3 {
        let file = published_file(published.join(format!("audio_processing/aec3/{name}.rs")));
        aec3 += &published_module(name, &file, &ours.join(format!("peek/{name}.rs")));
    }
    let dumper = file_module("apm_data_dumper", &stand_in("apm_data_dumper.rs"));
    let logging = module("logging", &dumper);
    let processing = module("audio_processing", &(logging + &module("aec3", &aec3)));
    let api = module("api", &file_module("config", &config));
    let allow = "#[allow(dead_code, unused_imports, clippy::all)]\n";
    format!("{allow}{api}{allow}{processing}")
}

/// A published file, which must be there; the build runs again when it changes.
fn published_file(file: PathBuf) -> PathBuf {
    if !file.is_file() {
        panic!("the published Rust lacks {}", file.display());
    }
    println!("cargo:rerun-if-changed={}", file.display());
    file
}

/// A published module. If a file in `src/peek` reads its private parts, both
/// stand in one module.
fn published_module(name: &str, file: &Path, peek: &Path) -> String {
    if peek.is_file() {
        module(name, &format!("include!({file:?});\ninclude!({peek:?});\n"))
    } else {
        file_module(name, file)
    }
}

fn module(name: &str, body: &str) -> String {
    format!("pub mod {name} {{\n{body}}}\n")
}

fn file_module(name: &str, file: &Path) -> String {
    format!("#[path = {file:?}]\npub mod {name};\n")
}
