//! Finds the crate's five files in the folder named by `FIXED_SRC` and writes
//! the module lines by which `src/lib.rs` compiles them where they are.

use std::path::{Path, PathBuf};
use std::{env, fs, process};

/// The crate's files by module name. `macros` comes first: the others use its macros.
const MODULES: [&str; 5] = ["macros", "cmp", "float_helper", "helpers", "int_helper"];

fn main() {
    println!("cargo:rerun-if-env-changed=FIXED_SRC");
    let result = source_folder().and_then(|folder| module_lines(&folder));
    match result {
        Ok(lines) => fs::write(variable_path("OUT_DIR").join("crate_files.rs"), lines)
            .expect("OUT_DIR can be written"),
        Err(problem) => {
            eprintln!("{problem}\n{}", wanted());
            process::exit(1);
        }
    }
}

/// What the caller has to provide.
fn wanted() -> String {
    let files: Vec<String> = MODULES.iter().map(|name| format!("{name}.rs")).collect();
    format!(
        "FIXED_SRC must name the folder src of the source of the crate `fixed` 1.31.0 \
         (absolute, or relative to the folder of the oracle), with the files {}.",
        files.join(", ")
    )
}

/// The folder named by the caller, as an absolute path.
fn source_folder() -> Result<PathBuf, String> {
    let named = env::var_os("FIXED_SRC").ok_or("FIXED_SRC is not set.")?;
    let folder = variable_path("CARGO_MANIFEST_DIR").join(&named);
    fs::canonicalize(&folder).map_err(|problem| format!("{}: {problem}.", folder.display()))
}

/// One module declaration for each of the crate's files, each by its absolute path.
fn module_lines(folder: &Path) -> Result<String, String> {
    let mut lines = String::new();
    for name in MODULES {
        let file = folder.join(format!("{name}.rs"));
        if !file.is_file() {
            return Err(format!("{} is missing.", file.display()));
        }
        let path = file
            .to_str()
            .ok_or_else(|| format!("{} is not UTF-8.", file.display()))?;
        println!("cargo:rerun-if-changed={path}");
        lines += "#[macro_use]\n#[allow(dead_code, unused_macros, clippy::all)]\n";
        lines += &format!("#[path = {path:?}]\nmod {name};\n");
    }
    Ok(lines)
}

/// A path that cargo hands to every build script.
fn variable_path(name: &str) -> PathBuf {
    PathBuf::from(env::var_os(name).unwrap_or_else(|| panic!("cargo sets {name}")))
}
