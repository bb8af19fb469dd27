// The grammar texts below a folder.
use std::path::{Path, PathBuf};

pub fn below(folder: &Path) -> Vec<Vec<u8>> {
    let mut paths = Vec::new();
    find(folder, &mut paths);
    paths.sort();
    paths.iter().map(|path| std::fs::read(path).expect("a text")).collect()
}

fn find(folder: &Path, found: &mut Vec<PathBuf>) {
    for entry in std::fs::read_dir(folder).expect("a folder") {
        let path = entry.expect("an entry").path();
        if path.is_dir() {
            find(&path, found);
        } else if path.extension().is_some_and(|extension| extension == "dogma") {
            found.push(path);
        }
    }
}
