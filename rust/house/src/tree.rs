//! The files of the repository.

use std::fs;
use std::path::{Path, PathBuf};

/// A file: its path from the repository's root, and what it holds.
pub struct File {
    pub path: String,
    pub text: String,
}

pub fn root() -> PathBuf {
    Path::new(env!("CARGO_MANIFEST_DIR")).join("../..")
}

/// Every file below a folder of the repository whose name has the ending, in the order of their paths. What `rt` keeps
/// of a crate, in its folder out/, is none.
pub fn below(folder: &str, ending: &str) -> Vec<File> {
    let mut files = Vec::new();
    gather(&root().join(folder), folder, ending, &mut files);
    files.sort_by(|a, b| a.path.cmp(&b.path));
    files
}

/// Is this, from the repository's root, what `rt` keeps or makes?
pub fn is_kept(path: &str) -> bool {
    path.starts_with("crates/") && path.split('/').nth(2) == Some("out")
}

fn gather(at: &Path, path: &str, ending: &str, files: &mut Vec<File>) {
    for entry in fs::read_dir(at).unwrap_or_else(|e| panic!("{}: {e}", at.display())) {
        let entry = entry.unwrap();
        let name = entry.file_name().into_string().unwrap();
        let path = format!("{path}/{name}");
        if entry.file_type().unwrap().is_dir() {
            if is_kept(&path) {
                continue;
            }
            gather(&entry.path(), &path, ending, files);
        } else if name.ends_with(ending) {
            let text = fs::read_to_string(entry.path()).unwrap();
            files.push(File { path, text });
        }
    }
}

#[cfg(test)]
mod tests {
    use super::is_kept;

    #[test]
    fn what_rt_keeps_is_left_out() {
        assert!(is_kept("crates/bits/out"));
        assert!(is_kept("crates/abi/out/libabi.a"));
        assert!(!is_kept("crates/bits/src"));
        assert!(!is_kept("crates/bits/proofs/out"));
        assert!(!is_kept("rust/out"));
    }
}
