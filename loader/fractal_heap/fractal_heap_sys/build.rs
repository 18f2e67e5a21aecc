//! Says where the proved libraries are: in the folder that FRACTAL_HEAP_LIBRARIES names, or where
//! `loader/static_libraries` puts them.
use std::os::unix::process::parent_id;
use std::path::{self, Path, PathBuf};
use std::{env, fs};

/// From this crate's folder in the repository.
const PUT: &str = "../../../target/staticlib";

/// The folder in which cargo was called, by the shell's PWD; none where that is missing or another folder, as it may be
/// where no shell calls cargo, but cron or an editor. Cargo itself, which runs this, has stayed where it was called.
fn called_in() -> Option<PathBuf> {
    println!("cargo::rerun-if-env-changed=PWD");
    let told = PathBuf::from(env::var_os("PWD")?);
    let real = fs::canonicalize(format!("/proc/{}/cwd", parent_id())).ok()?;
    (told.is_absolute() && fs::canonicalize(&told).ok()? == real).then_some(told)
}

/// The folder of the libraries. Cargo runs this in the crate's own folder, so a relative one is joined to the one in which
/// cargo was called, or not taken at all.
fn folder() -> Option<PathBuf> {
    println!("cargo::rerun-if-env-changed=FRACTAL_HEAP_LIBRARIES");
    let Some(named) = env::var_os("FRACTAL_HEAP_LIBRARIES").map(PathBuf::from) else {
        return Some(Path::new(env!("CARGO_MANIFEST_DIR")).join(PUT));
    };
    if named.is_absolute() {
        return Some(named);
    }
    let Some(called_in) = called_in() else {
        println!(
            "cargo::error=FRACTAL_HEAP_LIBRARIES is {}, which counts from where cargo is called, and PWD does not say \
             where that is: name an absolute folder",
            named.display()
        );
        return None;
    };
    let folder = called_in.join(named);
    Some(path::absolute(&folder).unwrap_or(folder))
}

fn main() {
    let Some(folder) = folder() else { return };
    let tools = env::var_os("CARGO_FEATURE_TOOLS").map(|_| "tools_c");
    for name in ["fractal_heap_c"].into_iter().chain(tools) {
        let library = folder.join(format!("lib{name}.a"));
        println!("cargo::rerun-if-changed={}", library.display());
        if !library.exists() {
            println!(
                "cargo::warning={} is not there: `./build` or `loader/static_libraries {name}` makes it in the \
                 repository; FRACTAL_HEAP_LIBRARIES names its folder where that is another one",
                library.display()
            );
        }
    }
    println!("cargo::rustc-link-search=native={}", folder.display());
}
