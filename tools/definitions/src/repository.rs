//! The repository's texts: the list of crates, and the files of each.

use std::collections::BTreeMap;
use std::path::Path;
use std::{fs, io};

/// The folders of a crate that have files to read.
const FOLDERS: &[&str] = &["specs", "proofs", "src"];

#[derive(Clone, Debug)]
pub struct Repository {
    /// The crates in the order of crates.txt.
    pub crates: Vec<String>,
    /// The text of each file, by its path below the root.
    pub files: BTreeMap<String, String>,
}

/// The root of the repository that this package belongs to.
pub fn root() -> &'static Path {
    Path::new(env!("CARGO_MANIFEST_DIR"))
        .ancestors()
        .nth(2)
        .expect("the package stands two folders below the root")
}

impl Repository {
    /// The repository whose root is this folder.
    pub fn open(root: &Path) -> io::Result<Repository> {
        let mut repository = Repository::new(&fs::read_to_string(root.join("crates.txt"))?, []);
        for name in repository.crates.clone() {
            for folder in FOLDERS {
                let below = format!("crates/{name}/{folder}");
                if root.join(&below).is_dir() {
                    repository.add_files(root, &below)?;
                }
            }
        }
        Ok(repository)
    }

    /// A repository with this list of crates and these files.
    pub fn new<'a>(list: &str, files: impl IntoIterator<Item = (&'a str, &'a str)>) -> Repository {
        let lines = list
            .lines()
            .map(|line| line.split('#').next().unwrap_or(""));
        // Between the name and the colon may stand what kind of crate it is.
        let names = lines.filter_map(|line| line.split([':', ' ']).find(|name| !name.is_empty()));
        let files = files.into_iter();
        Repository {
            crates: names.map(str::to_string).collect(),
            files: files
                .map(|(path, text)| (path.to_string(), text.to_string()))
                .collect(),
        }
    }

    /// Adds the files of a folder. Those of the folders below it are proofs of single functions.
    fn add_files(&mut self, root: &Path, folder: &str) -> io::Result<()> {
        for entry in fs::read_dir(root.join(folder))? {
            let path = entry?.path();
            let name = path.file_name().and_then(|name| name.to_str());
            if let (true, Some(name)) = (path.is_file(), name) {
                let text = fs::read_to_string(&path)?;
                self.files.insert(format!("{folder}/{name}"), text);
            }
        }
        Ok(())
    }
}
