//! Writes the copies of the original that the comparison builds: one that is its text and nothing else but an appended module
//! which reaches its private items, one into which the counting of readings is put by exact replacements, and from that one
//! for each of two rules for the smaller and the larger of two numbers.

mod instrument;
mod sha256;

use std::env;
use std::fs;
use std::path::{Path, PathBuf};
use std::process::{Command, exit};

/// The sums of the two files at a5fd651b9a of TOPP-THU/copp.
const LP_SUM: &str = "f4f213f9e7c988dcc72d66eb51614f9618103930d94e5ba25dd8c912f2fe279a";
const GENERAL_SUM: &str = "fddea2d0299e044804dd5fa2dfdc3289ce90ad26f126ed04a11070c0f352926b";

const REACH: &str = include_str!("reach.rs.in");

fn stop(message: &str) -> ! {
    eprintln!("compare: {message}");
    exit(1);
}

fn package() -> PathBuf {
    PathBuf::from(env::var("CARGO_MANIFEST_DIR").expect("cargo gives the package's folder"))
}

/// The folder of the original, which only whoever builds knows.
fn original_folder() -> PathBuf {
    println!("cargo:rerun-if-env-changed=COMPARE_ORIGINAL");
    match env::var("COMPARE_ORIGINAL") {
        Ok(given) => package().join(given),
        Err(_) => stop(
            "COMPARE_ORIGINAL names no folder of the original (`compare/run --original FOLDER` sets it)",
        ),
    }
}

/// A path that the environment gives, or its default, which is meant from the folder of this package.
fn path_from(variable: &str, default: &str) -> PathBuf {
    println!("cargo:rerun-if-env-changed={variable}");
    let given = env::var(variable).unwrap_or_else(|_| default.to_string());
    package().join(given)
}

fn read_text(path: &Path) -> String {
    println!("cargo:rerun-if-changed={}", path.display());
    match fs::read_to_string(path) {
        Ok(text) => text,
        Err(error) => stop(&format!("cannot read {}: {error}", path.display())),
    }
}

fn write_text(path: &Path, text: &str) {
    if let Err(error) = fs::write(path, text) {
        stop(&format!("cannot write {}: {error}", path.display()));
    }
}

/// The file's text, whose sum must be the published one unless any text is asked for.
fn original_text(path: &Path, published: &str, any_text: bool) -> (String, String) {
    let text = read_text(path);
    let sum = sha256::sum(text.as_bytes());
    if sum != published && !any_text {
        stop(&format!(
            "{} is not the published text: its SHA-256 is {sum}, not {published} (COMPARE_ANY_TEXT=1 builds it all the same)",
            path.display()
        ));
    }
    (text, sum)
}

/// Writes a module file that begins with `text`, and makes sure that it does.
fn write_module(path: &Path, text: &str) {
    write_text(path, &format!("{text}{REACH}"));
    let written = fs::read(path).unwrap_or_default();
    if !written.starts_with(text.as_bytes()) {
        stop(&format!(
            "{} does not begin with the text it is made from",
            path.display()
        ));
    }
}

fn module_line(name: &str, path: &Path) -> String {
    format!(
        "#[allow(dead_code, unused_imports, unused_assignments, clippy::all)]\n#[path = {:?}]\npub(crate) mod {name};\n",
        path.display().to_string()
    )
}

/// Writes the copies of the text, and the table of the branches that are counted in them; gives the lines of their modules.
fn write_copies(out: &Path, lp: String) -> Result<String, String> {
    let counted = instrument::instrument(&lp)?;
    write_text(&out.join("branches.rs"), &counted.names_table());
    let copies = [
        ("lp", lp),
        ("ordered", counted.by_rule("Ordered")?),
        ("left", counted.by_rule("Left")?),
        ("counted", counted.text),
    ];
    let mut modules = String::new();
    for (name, text) in copies {
        let path = out.join(format!("{name}.rs"));
        write_module(&path, &text);
        modules += &module_line(name, &path);
    }
    Ok(modules)
}

/// The static library's path, which must be there.
fn library() -> PathBuf {
    let library = path_from("COMPARE_LIBRARY", "../crates/kernel/out/libkernel.a");
    println!("cargo:rerun-if-changed={}", library.display());
    if !library.is_file() {
        stop(&format!(
            "there is no static library at {} (`rt lib` in crates/kernel makes it)",
            library.display()
        ));
    }
    library
}

/// The kernel's symbols, from the archive's own index: a first member named `/`, whose text is a number of places, the
/// places, and the names, each ended by a zero.
fn symbols(archive: &[u8]) -> Vec<String> {
    const HEAD: usize = 8 + 60;
    let indexed = archive.starts_with(b"!<arch>\n/ ") && archive.len() > HEAD + 4;
    let size = |bytes: &[u8]| String::from_utf8_lossy(bytes).trim().parse::<usize>();
    let Some(Ok(length)) = indexed.then(|| size(&archive[8 + 48..8 + 58])) else {
        stop("the static library has no index of its symbols");
    };
    let index = &archive[HEAD..archive.len().min(HEAD + length)];
    let places = u32::from_be_bytes([index[0], index[1], index[2], index[3]]) as usize;
    let names = index.get(4 + 4 * places..).unwrap_or_default();
    let found: Vec<String> = names
        .split(|&byte| byte == 0)
        .map(|name| String::from_utf8_lossy(name).into_owned())
        .filter(|name| name.starts_with("ravelsickle_"))
        .collect();
    if found.is_empty() {
        stop("the static library has no symbol of the kernel");
    }
    found
}

/// On x86-64 the library is linked into the programs.
fn link_kernel(library: &Path) {
    println!("cargo:rustc-cfg=direct");
    let folder = library.parent().expect("a file lies in a folder");
    let stem = library.file_stem().and_then(|s| s.to_str()).unwrap_or("");
    let Some(name) = stem.strip_prefix("lib") else {
        stop(&format!("{} is not called lib<name>.a", library.display()));
    };
    println!("cargo:rustc-link-search=native={}", folder.display());
    println!("cargo:rustc-link-lib=static={name}");
}

/// Elsewhere it is linked into a program for x86-64, which an emulator runs.
fn build_bridge(library: &Path, out: &Path) {
    let bridge = out.join("bridge");
    let clang = env::var("COMPARE_CLANG").unwrap_or("clang".to_string());
    println!("cargo:rerun-if-env-changed=COMPARE_CLANG");
    let built = Command::new(&clang)
        .args([
            "--target=x86_64-unknown-linux-gnu",
            "-O2",
            "-ffreestanding",
            "-fno-builtin",
        ])
        .args([
            "-fno-stack-protector",
            "-nostdlib",
            "-static",
            "-fuse-ld=lld",
            "-Wall",
            "-Wextra",
            "-I../bindings/c",
            "-o",
        ])
        .arg(&bridge)
        .arg("build/bridge.c")
        .arg(library)
        .status();
    match built {
        Ok(status) if status.success() => {}
        Ok(status) => stop(&format!("{clang} cannot build the bridge: {status}")),
        Err(error) => stop(&format!(
            "this processor is not x86-64, so clang and lld are needed to hold the library: {clang}: {error}"
        )),
    }
    println!("cargo:rustc-env=COMPARE_BRIDGE={}", bridge.display());
}

fn main() {
    println!("cargo:rerun-if-changed=build");
    println!("cargo:rerun-if-env-changed=COMPARE_ANY_TEXT");
    let any_text = env::var("COMPARE_ANY_TEXT").is_ok_and(|v| v == "1");
    let out =
        PathBuf::from(env::var("OUT_DIR").expect("cargo gives a folder for what is generated"));
    let folder = original_folder().join("src/math/numerical");

    let (lp, lp_sum) = original_text(&folder.join("lp.rs"), LP_SUM, any_text);
    let (general, general_sum) = original_text(&folder.join("general.rs"), GENERAL_SUM, any_text);
    println!("cargo:rustc-env=COMPARE_LP_SUM={lp_sum}");
    println!("cargo:rustc-env=COMPARE_GENERAL_SUM={general_sum}");
    let published = lp_sum == LP_SUM && general_sum == GENERAL_SUM;
    println!("cargo:rustc-env=COMPARE_PUBLISHED={published}");

    write_text(&out.join("general.rs"), &general);
    let modules = module_line("general", &out.join("general.rs"))
        + "pub(crate) use general::cross_product_2d;\n"
        + &write_copies(&out, lp).unwrap_or_else(|message| stop(&message));
    write_text(&out.join("numerical.rs"), &modules);

    println!("cargo:rustc-check-cfg=cfg(direct)");
    println!("cargo:rerun-if-env-changed=COMPARE_DIRECT");
    let library = library();
    let bytes = fs::read(&library).unwrap_or_default();
    println!(
        "cargo:rustc-env=COMPARE_LIBRARY_SUM={}",
        sha256::sum(&bytes)
    );
    println!(
        "cargo:rustc-env=COMPARE_LIBRARY_SYMBOLS={}",
        symbols(&bytes).join(",")
    );
    let here = env::var("CARGO_CFG_TARGET_ARCH").unwrap_or_default();
    if here == "x86_64" || env::var("COMPARE_DIRECT").is_ok_and(|v| v == "1") {
        link_kernel(&library);
    } else {
        build_bridge(&library, &out);
    }
}
