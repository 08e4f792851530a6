//! The repository as the documents speak of it.

use std::collections::HashSet;
use std::fs;
use std::path::{Path, PathBuf};

/// The repository: where it is, and the words of its sources.
pub struct Repository {
    root: PathBuf,
    words: HashSet<String>,
}

/// The folders of a crate that have sources.
const OF_A_CRATE: [&str; 3] = ["src", "specs", "proofs"];

/// The endings of files that are sources.
const ENDINGS: [&str; 5] = ["antt", "rt", "h", "c", "rs"];

impl Repository {
    /// The repository that this crate stands in.
    pub fn here() -> Repository {
        let root = Path::new(env!("CARGO_MANIFEST_DIR")).join("../..");
        let mut here = Repository { root, words: HashSet::new() };
        for source in here.sources() {
            here.words.extend(words_of(&read(&source)).map(str::to_string));
            here.words.extend(source.file_stem().map(|stem| stem.to_string_lossy().into_owned()));
        }
        here.words.extend(here.crates());
        here.words.extend(here.edits().into_iter().map(|(_, label)| label));
        here
    }

    /// The sources below include/, rust/*/src and in a crate's own folders, but for
    /// what the check leaves in its out/, and for this crate's own: it would vouch for
    /// the words of its own tests.
    fn sources(&self) -> Vec<PathBuf> {
        let members = names_in(&self.path("rust")).into_iter().filter(|name| name != "documents");
        let folders = members.map(|member| format!("rust/{member}/src"));
        let in_crates = self
            .crates()
            .into_iter()
            .flat_map(|owner| OF_A_CRATE.map(|folder| format!("crates/{owner}/{folder}")));
        let folders = folders.chain(in_crates).chain(["include".to_string()]);
        let files = folders.flat_map(|folder| files(&self.path(&folder)));
        files
            .filter(|file| ENDINGS.iter().any(|e| file.extension().is_some_and(|x| x == *e)))
            .collect()
    }

    /// The names of the crates of the library.
    fn crates(&self) -> Vec<String> {
        names_in(&self.path("crates"))
    }

    /// A file's or a folder's path.
    pub fn path(&self, from_root: &str) -> PathBuf {
        self.root.join(from_root)
    }

    /// The text of a file.
    pub fn text(&self, from_root: &str) -> String {
        read(&self.path(from_root))
    }

    /// The documents whose links are looked at, seen from the root.
    pub fn documents(&self) -> Vec<String> {
        let docs = names_in(&self.path("docs")).into_iter();
        let docs = docs.filter(|name| name.ends_with(".md")).map(|name| format!("docs/{name}"));
        docs.chain(["README.md".to_string()]).collect()
    }

    /// Whether a crate has a must-fail edit of this label.
    pub fn has_edit(&self, owner: &str, label: &str) -> bool {
        self.path(&format!("crates/{owner}/must-fail/{label}.edit")).is_file()
    }

    /// All must-fail edits: the crate and the label of each.
    pub fn edits(&self) -> Vec<(String, String)> {
        let mut edits = Vec::new();
        for owner in self.crates() {
            for name in names_in(&self.path(&format!("crates/{owner}/must-fail"))) {
                let label = name.strip_suffix(".edit").map(str::to_string);
                edits.extend(label.map(|label| (owner.clone(), label)));
            }
        }
        edits
    }

    /// Whether a file of this name in some rust/*/tests has a function of this name.
    pub fn has_test(&self, file: &str, function: &str) -> bool {
        names_in(&self.path("rust")).iter().any(|member| {
            let path = self.path(&format!("rust/{member}/tests/{file}.rs"));
            path.is_file() && has_function(&read(&path), function)
        })
    }

    /// Whether a crate has a function or a module of this name.
    pub fn has_item(&self, owner: &str, name: &str) -> bool {
        let sources = files(&self.path(&format!("crates/{owner}/src")));
        sources.iter().any(|source| {
            source.file_stem().is_some_and(|stem| stem == name) || has_function(&read(source), name)
        })
    }

    /// Whether a path below crates/ or below the root is there, with or without the
    /// ending of a source; or a folder of this name in some crate.
    pub fn has_path(&self, name: &str) -> bool {
        let name = name.trim_end_matches('/');
        let inside = ["", ".antt", ".rt"].map(|ending| format!("crates/{name}{ending}"));
        let in_crate = self.crates().into_iter().map(|owner| format!("crates/{owner}/{name}"));
        let mut all = inside.into_iter().chain([name.to_string()]).chain(in_crate);
        all.any(|path| self.path(&path).exists())
    }

    /// Whether a name occurs in some source as a whole word, or is the name of a
    /// source, a crate or a must-fail edit.
    pub fn has_word(&self, name: &str) -> bool {
        self.words.contains(name)
    }
}

/// The whole words of a text: runs of letters, digits, `_`, and of `-` and `'`
/// inside them, as names have them.
pub fn words_of(text: &str) -> impl Iterator<Item = &str> {
    let runs = text.split(|c: char| !(c.is_alphanumeric() || "_-'".contains(c)));
    runs.map(|run| run.trim_matches(['-', '\''])).filter(|word| !word.is_empty())
}

/// Whether a source has a function of this name.
fn has_function(source: &str, name: &str) -> bool {
    let mut after = source.split("fn ").skip(1);
    after.any(|rest| rest.strip_prefix(name).is_some_and(|rest| rest.starts_with(['(', '<'])))
}

/// A file's text.
fn read(file: &Path) -> String {
    fs::read_to_string(file).unwrap_or_else(|why| panic!("{}: {why}", file.display()))
}

/// The names in a folder, in order; none if there is no such folder.
fn names_in(folder: &Path) -> Vec<String> {
    let entries = fs::read_dir(folder).into_iter().flatten().flatten();
    let mut names: Vec<String> =
        entries.map(|entry| entry.file_name().to_string_lossy().into_owned()).collect();
    names.sort();
    names
}

/// The files below a folder.
fn files(folder: &Path) -> Vec<PathBuf> {
    let paths = names_in(folder).into_iter().map(|name| folder.join(name));
    let below = paths.flat_map(|path| if path.is_dir() { files(&path) } else { vec![path] });
    below.collect()
}

#[cfg(test)]
mod tests {
    use super::*;

    #[test]
    fn words_are_whole() {
        let words: Vec<&str> = words_of("pub read-back : a → b_1, x' -- 'so'.").collect();
        assert_eq!(words, ["pub", "read-back", "a", "b_1", "x", "so"]);
    }

    #[test]
    fn functions_are_whole() {
        assert!(has_function("pub fn parse(text", "parse"));
        assert!(has_function("fn over<T>(x: T)", "over"));
        assert!(!has_function("fn parse_within(text", "parse"));
    }

    #[test]
    fn what_is_there_is_found() {
        let here = Repository::here();
        assert!(here.has_path("rust/documents") && here.has_path("specs/"));
        assert!(!here.has_path("rust/nothing"));
        assert!(here.has_test("promises", "links_lead_somewhere"));
        assert!(!here.has_test("promises", "links"));
        assert!(here.has_word("Refusal") && !here.has_word("Refusa"));
        let (owner, label) = here.edits().swap_remove(0);
        assert!(here.has_edit(&owner, &label) && !here.has_edit(&owner, "no such label"));
        assert!(here.documents().contains(&"docs/PROMISES.md".to_string()));
    }
}
