// What is left of a crate for an edit: its types, definitions and laws, what is promised, and the functions that the
// edit touches with those that they call. Everything else is taken out of the crate's folder, which is a copy.
//
//   left CRATE EDIT      CRATE is the folder of the copy
//
// The sources are laid out by 'rt fmt': a function ends at the first brace that stands as far left as it begins.
use std::collections::BTreeSet;
use std::fs;
use std::path::{Path, PathBuf};

// A function: the file that it stands in, its lines there, and how it is called.
struct Function {
    file: usize,
    lines: std::ops::RangeInclusive<usize>,
    module: String,
    owner: Option<String>,
    name: String,
    text: String,
}

struct File {
    path: PathBuf,
    lines: Vec<String>,
}

fn fail(why: &str) -> ! {
    eprintln!("left: {why}");
    std::process::exit(1)
}

fn read(path: &Path) -> String {
    fs::read_to_string(path).unwrap_or_else(|e| fail(&format!("{} cannot be read: {e}", path.display())))
}

fn files_below(folder: &Path) -> Vec<PathBuf> {
    let mut found = Vec::new();
    let Ok(entries) = fs::read_dir(folder) else { return found };
    for entry in entries.flatten() {
        let path = entry.path();
        if path.is_dir() {
            found.extend(files_below(&path));
        } else {
            found.push(path);
        }
    }
    found.sort();
    found
}

// The name of the function that begins in a line, if one does.
fn begins(line: &str) -> Option<&str> {
    let rest = line.trim_start();
    let rest = rest.strip_prefix("pub(crate) ").or(rest.strip_prefix("pub ")).unwrap_or(rest);
    rest.strip_prefix("fn ")?.split(['(', '<']).next()
}

// Whose room the proofs of an impl's functions have: the type's, or, where it is of a trait, that of both names.
fn owner_of(kind: &str) -> String {
    match kind.split_once(" for ") {
        Some((of, owner)) => format!("{owner}{of}"),
        None => kind.to_string(),
    }
}

fn is_trait(line: &str) -> bool {
    ["trait ", "pub trait ", "pub(crate) trait "].iter().any(|start| line.starts_with(start))
}

fn indent(line: &str) -> &str {
    &line[..line.len() - line.trim_start().len()]
}

// The functions of a file, in order.
fn functions_of(at: usize, file: &File) -> Vec<Function> {
    let module = file.path.file_stem().map(|s| s.to_string_lossy().into_owned()).unwrap_or_default();
    let (mut found, mut owner, mut i) = (Vec::new(), None, 0);
    while i < file.lines.len() {
        let line = &file.lines[i];
        if let Some(kind) = line.strip_prefix("impl ") {
            owner = Some(owner_of(kind.trim_end_matches(" {")));
        } else if is_trait(line) {
            // What a trait asks for stays.
            i = (i..file.lines.len()).find(|&j| file.lines[j] == "}").unwrap_or(file.lines.len() - 1);
            continue;
        } else if line == "}" {
            owner = None;
        }
        if let Some(name) = begins(line) {
            let (shut, empty) = (format!("{}}}", indent(line)), format!("{}{{}}", indent(line)));
            let end = (i..file.lines.len()).find(|&j| file.lines[j] == shut || file.lines[j] == empty);
            let end = end.unwrap_or_else(|| fail(&format!("{name} in {} has no end", file.path.display())));
            let text = file.lines[i..=end].join("\n");
            let (module, owner) = (module.clone(), owner.clone());
            // Its attributes go with it.
            let first = (0..i).rev().find(|&j| !file.lines[j].trim_start().starts_with("#[")).map_or(0, |j| j + 1);
            found.push(Function { file: at, lines: first..=end, module, owner, name: name.into(), text });
            i = end;
        }
        i += 1;
    }
    found
}

// The names that are called in a text, each with what stands before it: "", ".", or the last word of a path.
fn calls_in(text: &str) -> BTreeSet<(String, String)> {
    let is_word = |c: char| c.is_alphanumeric() || c == '_';
    let mut calls = BTreeSet::new();
    for (at, _) in text.match_indices('(') {
        let name: String = last_word(&text[..at], is_word);
        let before = &text[..at - name.len()];
        let how = match before.strip_suffix("::") {
            Some(path) => last_word(path, is_word),
            None if before.ends_with('.') => ".".into(),
            None => String::new(),
        };
        calls.insert((how, name));
    }
    calls
}

fn last_word(text: &str, is_word: impl Fn(char) -> bool) -> String {
    text.rsplit(|c| !is_word(c)).next().unwrap_or_default().to_string()
}

// Whether a call that stands in a module may be that of a function.
fn may_be(called: &(String, String), module: &str, f: &Function) -> bool {
    let (how, name) = called;
    *name == f.name
        && match how.as_str() {
            "" => f.owner.is_none() && f.module == module,
            "." => f.owner.is_some(),
            "crate" => f.owner.is_none() && f.module == "lib",
            path => f.module == *path || f.owner.as_deref() == Some(path),
        }
}

// Which functions stay: those that the edit touches, those that only promise, and what they call.
fn staying(functions: &[Function], touched: &[usize]) -> BTreeSet<usize> {
    let promising = (0..functions.len()).filter(|&i| functions[i].text.ends_with("\n{}"));
    let mut todo: Vec<usize> = touched.iter().copied().chain(promising).collect();
    let mut stay = BTreeSet::new();
    while let Some(i) = todo.pop() {
        if stay.insert(i) {
            let calls = calls_in(&functions[i].text);
            let called = |f: &Function| calls.iter().any(|c| may_be(c, &functions[i].module, f));
            todo.extend((0..functions.len()).filter(|&j| called(&functions[j])));
        }
    }
    stay
}

// The functions that an edit touches: those with the text that it replaces.
fn touched(edit: &str, files: &[File], functions: &[Function]) -> Vec<usize> {
    let (mut found, mut file) = (Vec::new(), "");
    for line in edit.lines() {
        if let Some(name) = line.strip_prefix("file: ") {
            file = name;
        }
        let (Some(old), Some(name)) = (line.strip_prefix("old: "), file.strip_prefix("src/")) else { continue };
        let has = |f: &Function| files[f.file].path.ends_with(name) && f.text.contains(old);
        let all: Vec<usize> = (0..functions.len()).filter(|&i| has(&functions[i])).collect();
        if all.is_empty() {
            fail(&format!("no function of {name} has the text '{old}'"));
        }
        found.extend(all);
    }
    found
}

// Writes a file without the functions that go, and without what they leave empty.
fn write_left(file: &File, going: &[&Function]) {
    let goes = |i: usize| going.iter().any(|f| f.lines.contains(&i));
    let mut text = String::new();
    let mut i = 0;
    while i < file.lines.len() {
        let line = &file.lines[i];
        if line.starts_with("impl ") {
            let end = (i..file.lines.len()).find(|&j| file.lines[j] == "}").unwrap_or(file.lines.len() - 1);
            if !(i..=end).any(|j| begins(&file.lines[j]).is_some() && !goes(j)) {
                i = end + 1;
                continue;
            }
        }
        if !goes(i) {
            text.push_str(line);
            text.push('\n');
        }
        i += 1;
    }
    fs::write(&file.path, text).unwrap_or_else(|e| fail(&format!("{} cannot be written: {e}", file.path.display())));
}

// The files of a function's proof: what its loops keep, and the answers to its goals; or a proof by hand.
const PROOF: [&str; 3] = ["Invariants.antt", "Answers.antt", "Proof.antt"];

// Whether the names of a cycle, joined by _, have this one among them.
fn names_one(names: &str, name: &str) -> bool {
    format!("_{names}_").contains(&format!("_{name}_"))
}

// Takes the proof of a function away. That of a method stands in its type's room, which is in that of the module where
// the type is declared; functions that call each other have one proof, in a folder with all their names, as +even_odd.
fn without_proof(folder: &Path, f: &Function) {
    let module = if f.module == "lib" { "" } else { &f.module };
    let rooms = match f.owner.as_deref() {
        Some(owner) => vec![format!("{module}/{owner}"), owner.to_string()],
        None => vec![module.to_string()],
    };
    for room in rooms {
        let room = folder.join("proofs").join(room.trim_start_matches('/'));
        for proof in files_below(&room).iter().filter(|path| PROOF.iter().any(|name| path.ends_with(name))) {
            let of = proof.parent().filter(|p| p.parent() == Some(&room)).and_then(Path::file_name);
            let of = of.map(|name| name.to_string_lossy().into_owned()).unwrap_or_default();
            if of == f.name || of.strip_prefix('+').is_some_and(|names| names_one(names, &f.name)) {
                fs::remove_file(proof).unwrap_or_else(|e| fail(&format!("{} stays: {e}", proof.display())));
            }
        }
    }
}

fn main() {
    let words: Vec<String> = std::env::args().skip(1).collect();
    let [folder, edit] = words.as_slice() else { fail("it takes a crate's folder and an edit") };
    let folder = Path::new(folder);
    let lines = |text: String| text.lines().map(String::from).collect();
    let all = files_below(&folder.join("src"));
    let files: Vec<File> = all.into_iter().map(|path| File { lines: lines(read(&path)), path }).collect();
    let functions: Vec<Function> = files.iter().enumerate().flat_map(|(at, f)| functions_of(at, f)).collect();
    let stay = staying(&functions, &touched(&read(Path::new(edit)), &files, &functions));
    let goes = |(i, f)| if stay.contains(&i) { None } else { Some(f) };
    let going: Vec<&Function> = functions.iter().enumerate().filter_map(goes).collect();
    for (at, file) in files.iter().enumerate() {
        let here: Vec<&Function> = going.iter().copied().filter(|f| f.file == at).collect();
        write_left(file, &here);
    }
    going.iter().for_each(|f| without_proof(folder, f));
    println!("{} of {} functions", stay.len(), functions.len());
}
