//! Writes the stored cases into the repository: what the proved programs read and must write, and
//! what lies in `cases/`.
//!
//! A case that a paper settles must get the answer that the paper gives, or nothing is written.

use std::error::Error;
use std::fs;
use std::path::{Path, PathBuf};

fn main() -> Result<(), Box<dyn Error>> {
    let root = Path::new(env!("CARGO_MANIFEST_DIR")).join("../..");
    let root = std::env::args_os().nth(1).map_or(root, PathBuf::from);
    let files = second::stored::files()?;
    for (path, bytes) in &files {
        let path = root.join(path);
        fs::create_dir_all(path.parent().unwrap_or(&root))?;
        fs::write(path, bytes)?;
    }
    println!("{} files in {}", files.len(), root.display());
    Ok(())
}
