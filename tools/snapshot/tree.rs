// The crates in the order of crates.txt, each file of their src/ and specs/ read.
use crate::{definitions, sources};
use std::fs;
use std::path::Path;

// What a `use` brings: the path below its own, and the name that it has here.
pub struct Brought {
    pub from: Vec<String>,
    pub name: String,
}

// `word` is how it is written: use, ghost use, or code for the `use ..;` of code.
pub struct Use {
    pub word: &'static str,
    pub path: Vec<String>,
    pub names: Vec<Brought>,
    pub module: bool,
}

// A definition, a record, a declared type or a function's header: its names, constructors among them; its fields; its
// text; the names that its terms write; the paths that its code writes. A root is promised by itself. A hidden one is a
// trait that is not public, of which only the name is read.
pub struct Item {
    pub names: Vec<String>,
    pub fields: Vec<String>,
    pub lines: Vec<String>,
    pub words: Vec<Vec<String>>,
    pub paths: Vec<Vec<String>>,
    pub root: bool,
    pub hidden: bool,
}

// A file, with the modules below it, and each `impl` that is passed over: its trait's name, and what is said unless
// that trait is hidden.
pub struct File {
    pub path: String,
    pub below: Vec<String>,
    pub uses: Vec<Use>,
    pub items: Vec<Item>,
    pub passed: Vec<(String, String)>,
}

impl File {
    pub fn new(path: &str) -> File {
        File { path: path.to_string(), below: Vec::new(), uses: Vec::new(), items: Vec::new(), passed: Vec::new() }
    }

    // The file, unless a `use` of definitions begins at a name of the file itself: it would be taken for the kit's.
    fn beginning_at_libraries(self) -> Result<File, String> {
        let of_terms = || self.uses.iter().filter(|u| u.word != "code");
        let brought = of_terms().flat_map(|u| u.names.iter().map(|b| &b.name));
        let names: Vec<&String> = brought.chain(&self.below).collect();
        let own = of_terms().find(|u| names.contains(&&u.path[0])).map(|u| u.path.join("."));
        match own {
            Some(path) => Err(format!("{}: 'use {}' does not begin at a library.", self.path, path)),
            None => Ok(self),
        }
    }

    fn hides(&self, name: &str) -> bool {
        self.items.iter().any(|i| i.hidden && i.names[0] == name)
    }

    // `crates/NAME/FOLDER/MODULE.rt` as NAME, FOLDER and MODULE.
    pub fn parts(&self) -> (&str, &str, &str) {
        let mut parts = self.path.splitn(4, '/').skip(1);
        let mut next = || parts.next().unwrap_or("");
        let (name, folder, file) = (next(), next(), next());
        (name, folder, file.rsplit_once('.').map_or(file, |(stem, _)| stem))
    }
}

pub struct Tree {
    pub crates: Vec<String>,
    pub files: Vec<File>,
}

impl Tree {
    // The place of a file by crate, folder and module.
    pub fn file(&self, name: &str, folder: &str, module: &str) -> Option<usize> {
        self.files.iter().position(|f| f.parts() == (name, folder, module))
    }

    // Whether a name in a file is that of a hidden trait: of the file, or of another by `use crate::MODULE::NAME`.
    fn hidden(&self, file: &File, name: &str) -> bool {
        let by = |u: &Use| match u.path.split_first() {
            Some((first, module)) if u.word == "code" && first == "crate" => {
                let place = self.file(file.parts().0, "src", &module.join("/"));
                let of_name = |b: &Brought| b.name == name && place.map_or(false, |p| self.files[p].hides(&b.from[0]));
                u.names.iter().any(of_name)
            }
            _ => false,
        };
        file.hides(name) || file.uses.iter().any(by)
    }
}

pub fn text_of(path: &Path) -> Result<String, String> {
    fs::read_to_string(path).map_err(|why| format!("'{}' cannot be read: {}.", path.display(), why))
}

// The files below a folder with an ending, as paths below the root, in the order of their bytes.
fn files_in(root: &Path, folder: &str, ending: &str) -> Result<Vec<String>, String> {
    let mut found = Vec::new();
    let here = root.join(folder);
    if !here.is_dir() {
        return Ok(found);
    }
    let entries = fs::read_dir(&here).map_err(|why| format!("'{}' cannot be read: {}.", here.display(), why))?;
    for entry in entries {
        let entry = entry.map_err(|why| format!("'{}' cannot be read: {}.", here.display(), why))?;
        let name = entry.file_name().to_string_lossy().into_owned();
        let path = format!("{}/{}", folder, name);
        if entry.path().is_dir() {
            found.extend(files_in(root, &path, ending)?);
        } else if name.ends_with(ending) {
            found.push(path);
        }
    }
    found.sort();
    Ok(found)
}

// Reads all crates that crates.txt lists.
pub fn read(root: &Path) -> Result<Tree, String> {
    let listed = text_of(&root.join("crates.txt"))?;
    let lines = listed.lines().map(|l| l.split('#').next().unwrap_or(""));
    let named = lines.filter_map(|l| l.split_once(':'));
    let crates: Vec<String> = named.filter_map(|(head, _)| head.split_whitespace().next().map(str::to_string)).collect();
    let mut files = Vec::new();
    for name in &crates {
        let sources_of = files_in(root, &format!("crates/{}/src", name), ".rt")?;
        if sources_of.is_empty() {
            return Err(format!("crates.txt lists '{}', and crates/{}/src has no file of it.", name, name));
        }
        for path in sources_of {
            files.push(sources::read(&path, &text_of(&root.join(&path))?)?.beginning_at_libraries()?);
        }
        for path in files_in(root, &format!("crates/{}/specs", name), ".antt")? {
            files.push(definitions::read(&path, &text_of(&root.join(&path))?)?.beginning_at_libraries()?);
        }
    }
    let tree = Tree { crates, files };
    let passed = tree.files.iter().flat_map(|file| file.passed.iter().map(move |one| (file, one)));
    match passed.into_iter().find(|(file, (name, _))| !tree.hidden(file, name)) {
        Some((_, (_, why))) => Err(why.clone()),
        None => Ok(tree),
    }
}
