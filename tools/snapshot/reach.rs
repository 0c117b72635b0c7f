// What the promises reach: from every public function and type and every function that holds a promise, by the names
// that they write, through `use` lines and from crate to crate. A name that may be two things is taken for both.
use crate::text::writes;
use crate::tree::{File, Item, Tree, Use};
use std::collections::BTreeSet;

// An item by the place of its file and its place in it.
pub type Place = (usize, usize);

// Whether an item has this name; from another file also by a field of its own.
fn has(item: &Item, name: &str, outside: bool) -> bool {
    item.names.iter().any(|n| writes(name, n)) || (outside && item.fields.iter().any(|n| writes(name, n)))
}

fn items_of(tree: &Tree, file: usize, name: &str, outside: bool) -> Vec<Place> {
    let items = tree.files[file].items.iter().enumerate();
    items.filter(|(_, item)| has(item, name, outside)).map(|(i, _)| (file, i)).collect()
}

// The declared type that a path names below `declared`: modules, the type, and perhaps its variants.
fn declared(tree: &Tree, krate: &str, path: &[String]) -> Vec<Place> {
    for n in 0..path.len() {
        let module = if n == 0 { "lib".to_string() } else { path[..n].join("/") };
        if let Some(file) = tree.file(krate, "src", &module) {
            let found = items_of(tree, file, &path[n], false);
            if !found.is_empty() {
                return found;
            }
        }
    }
    Vec::new()
}

// What a whole path of antt names: an item of specs/, a declared type, or a module (nothing). None: it is not there.
fn follow(tree: &Tree, path: &[String]) -> Option<Vec<Place>> {
    let krate = match path.get(1) {
        Some(krate) if path[0] == "Rattle" && tree.crates.contains(krate) => krate.as_str(),
        _ => return Some(Vec::new()), // the kit's
    };
    if path.get(2).map(String::as_str) != Some("specs") {
        return None;
    }
    let below = &path[3..];
    if below.first().map(String::as_str) == Some("declared") {
        return Some(declared(tree, krate, &below[1..])).filter(|found| !found.is_empty());
    }
    for n in (1..=below.len()).rev() {
        if let Some(file) = tree.file(krate, "specs", &below[..n].join("/")) {
            return match below.get(n) {
                None => Some(Vec::new()),
                Some(name) => Some(items_of(tree, file, name, true)).filter(|found| !found.is_empty()),
            };
        }
    }
    None
}

fn whole(one: &Use, below: &[String]) -> Vec<String> {
    one.path.iter().chain(below).cloned().collect()
}

// What a path of code names: an item of a module of its own or a lower crate. What is not there is the kit's.
fn coded(tree: &Tree, file: &File, path: &[String]) -> Vec<Place> {
    let krate = if path[0] == "crate" { file.parts().0 } else { path[0].as_str() };
    for n in 1..path.len() {
        let module = if n == 1 { "lib".to_string() } else { path[1..n].join("/") };
        if let Some(place) = tree.file(krate, "src", &module) {
            let found = items_of(tree, place, &path[n], false);
            if !found.is_empty() {
                return found;
            }
        }
    }
    Vec::new()
}

// Whether a `use` brings what this word writes: the names of it that do.
pub fn brings(one: &Use, word: &str) -> Vec<usize> {
    one.names.iter().enumerate().filter(|(_, b)| writes(word, &b.name)).map(|(i, _)| i).collect()
}

// All that a name written in a file may be.
fn meant(tree: &Tree, at: usize, name: &[String]) -> Result<Vec<Place>, String> {
    let file = &tree.files[at];
    let missing = |path: &[String]| format!("{} names '{}', and no file of specs/ has it.", file.path, path.join("."));
    if name[0] == "Rattle" {
        return follow(tree, name).ok_or_else(|| missing(name));
    }
    let mut found = items_of(tree, at, &name[0], false);
    for one in &file.uses {
        for n in brings(one, &name[0]) {
            let path = whole(one, &one.names[n].from);
            let below: Vec<String> = path.iter().chain(&name[1..]).cloned().collect();
            if one.word == "code" {
                found.extend(coded(tree, file, &below));
            } else if one.module && name.len() > 1 {
                found.extend(follow(tree, &below).ok_or_else(|| missing(&below))?);
            } else {
                found.extend(follow(tree, &path).ok_or_else(|| missing(&path))?);
            }
        }
    }
    Ok(found)
}

// All that the item writes, in terms and in code.
fn next(tree: &Tree, place: Place) -> Result<Vec<Place>, String> {
    let file = &tree.files[place.0];
    let item = &file.items[place.1];
    if item.hidden {
        let name = &item.names[0];
        return Err(format!("{}: '{}' is named, a trait that is not public and is not read here.", file.path, name));
    }
    let mut found = Vec::new();
    for name in &item.words {
        found.extend(meant(tree, place.0, name)?);
    }
    for path in &item.paths {
        found.extend(meant(tree, place.0, path)?);
        if path.len() > 1 && path[1] == "proofs" && (path[0] == "crate" || tree.crates.contains(&path[0])) {
            return Err(format!("{} names '{}', and no file of specs/ has it.", file.path, path.join("::")));
        }
        if path.len() > 1 {
            let below: Vec<String> = Some("crate".to_string()).into_iter().chain(path.iter().cloned()).collect();
            found.extend(coded(tree, file, path).into_iter().chain(coded(tree, file, &below)));
        }
    }
    Ok(found)
}

// The places of all that is promised, in the tree's order.
pub fn from_roots(tree: &Tree) -> Result<BTreeSet<Place>, String> {
    let mut reached = BTreeSet::new();
    let mut open: Vec<Place> = Vec::new();
    for (f, file) in tree.files.iter().enumerate() {
        open.extend(file.items.iter().enumerate().filter(|(_, item)| item.root).map(|(i, _)| (f, i)));
    }
    while let Some(place) = open.pop() {
        if reached.insert(place) {
            open.extend(next(tree, place)?);
        }
    }
    Ok(reached)
}
