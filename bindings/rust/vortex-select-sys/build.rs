//! Links the static libraries, from the first of these places that has them:
//!
//! - the folder that `VORTEX_SELECT_LIB_DIR` names;
//! - `lib` in this package, which `bindings/rust/package` fills;
//! - the repository, where `rt lib` builds them if they are older than their sources.
//!
//! Without a library there is a warning, and the build ends where the library would be linked. So
//! `cargo doc` and `cargo check` need no library.
use std::env;
use std::fs;
use std::path::{Path, PathBuf};
use std::process::{exit, Command};
use std::time::SystemTime;

fn fail(why: String) -> ! {
    eprintln!("vortex-select-sys: {why}");
    exit(1)
}

/// Returns the crate and its dependencies, as `crates.txt` lists them.
fn with_dependencies(list: &str, name: &str) -> Vec<String> {
    let line_of = |name: &str| {
        let is_named = |line: &&str| line.split([':', ' ']).next() == Some(name);
        list.lines().find(is_named)
    };
    let mut found = vec![name.to_string()];
    let mut next = 0;
    while next < found.len() {
        let line = line_of(&found[next]).unwrap_or_default();
        let needed = line.split_once(':').map_or("", |(_, needed)| needed);
        for other in needed.split_whitespace() {
            if line_of(other).is_some() && !found.iter().any(|name| name == other) {
                found.push(other.to_string());
            }
        }
        next += 1;
    }
    found
}

/// Returns when a file, or the newest file in a folder, was written.
fn written_at(path: &Path) -> Option<SystemTime> {
    if !path.is_dir() {
        return fs::metadata(path).and_then(|is| is.modified()).ok();
    }
    let entries = fs::read_dir(path).ok()?;
    entries
        .filter_map(|entry| written_at(&entry.ok()?.path()))
        .max()
}

/// Returns the sources of the library.
fn sources(root: &Path, name: &str) -> Vec<PathBuf> {
    let list = root.join("crates.txt");
    let text = fs::read_to_string(&list).unwrap_or_default();
    let folders = with_dependencies(&text, name).into_iter().flat_map(|name| {
        let parts = ["src", "specs", "proofs"].into_iter();
        parts.map(move |part| root.join("crates").join(&name).join(part))
    });
    let mut found: Vec<PathBuf> = folders.filter(|folder| folder.exists()).collect();
    found.push(list);
    found
}

/// Warns that a library can't be linked.
fn warn(library: &Path, why: &str) {
    println!(
        "cargo:warning=expected {}, got {why}: set VORTEX_SELECT_LIB_DIR to the folder of a built \
         library",
        library.display()
    );
}

fn build(folder: &Path, library: &Path) {
    let run = Command::new("rt").arg("lib").current_dir(folder).output();
    match run {
        Ok(run) if run.status.success() && library.exists() => (),
        Ok(run) => {
            let said = [run.stdout, run.stderr].concat();
            eprint!("{}", String::from_utf8_lossy(&said));
            fail(format!("`rt lib` failed in {}", folder.display()))
        }
        Err(why) => warn(
            library,
            &format!("no new one, and no `rt` to build it ({why})"),
        ),
    }
}

/// Returns the folder of the library, and builds the library if a source is newer.
fn built(root: &Path, name: &str) -> PathBuf {
    let folder = root.join("crates").join(name);
    let library = folder.join("out").join(format!("lib{name}.a"));
    let target = env::var("TARGET").unwrap_or_default();
    if !folder.exists() {
        warn(&library, "no crate of that name beside this one");
    } else if target != "x86_64-unknown-linux-gnu" && target != "x86_64-unknown-linux-musl" {
        warn(
            &library,
            &format!("target {target}, for which `rt lib` doesn't build"),
        );
    } else {
        let sources = sources(root, name);
        let newest = sources.iter().filter_map(|path| written_at(path)).max();
        if !library.exists() || written_at(&library) < newest {
            build(&folder, &library);
        }
        for path in sources.iter().chain([&library]) {
            println!("cargo:rerun-if-changed={}", path.display());
        }
    }
    folder.join("out")
}

fn prebuilt(folder: PathBuf, name: &str) -> PathBuf {
    let library = folder.join(format!("lib{name}.a"));
    if !library.exists() {
        fail(format!(
            "VORTEX_SELECT_LIB_DIR has no {}",
            library.display()
        ));
    }
    println!("cargo:rerun-if-changed={}", library.display());
    folder
}

/// Runs a tool of C, and fails if it does.
fn run(tool: &str, words: Vec<PathBuf>) {
    match Command::new(tool).args(&words).status() {
        Ok(status) if status.success() => (),
        Ok(status) => fail(format!("{tool}: {status}, of {words:?}")),
        Err(why) => fail(format!("{tool} can't be run: {why}")),
    }
}

const SHIM: &str = "vortex_arrow_shim";

/// Returns the C files of the shim: those of `shim` whose names begin with `arrow`.
fn shim_sources(folder: &Path) -> Vec<PathBuf> {
    let is_source = |path: &PathBuf| {
        let name = path
            .file_name()
            .map_or("".into(), |name| name.to_string_lossy());
        name.starts_with("arrow") && name.ends_with(".c")
    };
    let entries = fs::read_dir(folder).into_iter().flatten().flatten();
    let mut found: Vec<PathBuf> = entries
        .map(|entry| entry.path())
        .filter(is_source)
        .collect();
    found.sort();
    found
}

/// Returns a folder of C files: that of this package, or else the repository's.
fn c_folder(here: &Path, name: &str) -> PathBuf {
    let packaged = here.join(name);
    if packaged.exists() {
        packaged
    } else {
        here.join("../../..").join(name)
    }
}

/// Compiles one file of the shim, and returns its object.
fn compiled(include: &Path, source: &Path, out: &Path) -> PathBuf {
    let object = out.join(source.with_extension("o").file_name().expect("a name"));
    let flags = ["-std=c99", "-O2", "-fPIC", "-c", "-I"].map(PathBuf::from);
    let files = [include.into(), source.into(), "-o".into(), object.clone()];
    run("cc", flags.into_iter().chain(files).collect());
    object
}

/// Builds and links the shim over Arrow's interface.
fn link_shim(here: &Path) {
    let (include, shim) = (c_folder(here, "include"), c_folder(here, "shim"));
    let sources = shim_sources(&shim);
    if sources.is_empty() {
        fail("expected the shim's sources in shim/arrow*.c, got none".into());
    }
    let out = PathBuf::from(env::var_os("OUT_DIR").expect("cargo sets it"));
    let library = out.join(format!("lib{SHIM}.a"));
    let _ = fs::remove_file(&library);
    let objects = sources
        .iter()
        .map(|source| compiled(&include, source, &out));
    let words = ["rcs".into(), library].into_iter().chain(objects).collect();
    run("ar", words);
    for path in sources.iter().chain([&include, &shim]) {
        println!("cargo:rerun-if-changed={}", path.display());
    }
    println!("cargo:rustc-link-search=native={}", out.display());
    println!("cargo:rustc-link-lib=static={SHIM}");
}

/// Returns the folder of a library.
fn folder_of(here: &Path, name: &str) -> PathBuf {
    let packaged = here.join("lib");
    match env::var_os("VORTEX_SELECT_LIB_DIR") {
        Some(folder) => prebuilt(folder.into(), name),
        None if packaged.join(format!("lib{name}.a")).exists() => packaged,
        None => built(&here.join("../../.."), name),
    }
}

fn main() {
    let here = PathBuf::from(env::var_os("CARGO_MANIFEST_DIR").expect("cargo sets it"));
    println!("cargo:rerun-if-env-changed=VORTEX_SELECT_LIB_DIR");
    println!("cargo:rerun-if-env-changed=DOCS_RS");
    println!("cargo:rerun-if-changed=build.rs");
    if env::var_os("DOCS_RS").is_some() {
        return; // Documentation links nothing.
    }
    let has = |feature: &str| env::var_os(format!("CARGO_FEATURE_{feature}")).is_some();
    if has("ARROW") {
        link_shim(&here);
    }
    let wanted = [
        ("vortex_rows_c", has("ROWS")),
        ("vortex_arrow_c", has("ARROW")),
        ("vortex_parts_c", has("PARTS")),
        ("vortex_chunks_c", has("CHUNKS")),
        ("vortex_c", true),
    ];
    for (name, _) in wanted.into_iter().filter(|(_, is_wanted)| *is_wanted) {
        let folder = folder_of(&here, name);
        println!("cargo:rustc-link-search=native={}", folder.display());
        println!("cargo:rustc-link-lib=static={name}");
    }
}
