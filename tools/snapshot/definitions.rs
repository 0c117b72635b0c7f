// One file of specs/: what its `use` lines bring, and its definitions and records, each with the names that it writes.
use crate::text;
use crate::tree::{Brought, File, Item, Use};

// The words of a line up to a mark, without `pub` and its like.
fn declared(line: &str) -> Vec<String> {
    let marks = ["pub", "abbrev", "unfoldable", "axiom"];
    let words = line.split_whitespace().take_while(|w| *w != ":");
    words.filter(|w| !marks.contains(w)).map(str::to_string).collect()
}

// Whether a line is a signature: marks, one name, perhaps levels in braces, then a colon.
fn is_signature(line: &str) -> bool {
    let words = declared(line);
    let levels = words.len() > 1 && words[1].starts_with('{') && words[words.len() - 1].ends_with('}');
    let one = words.len() == 1 || (levels && !words.contains(&"=".to_string()));
    one && line.split_whitespace().any(|w| w == ":")
}

// The names declared in an indented block: its lines of the least indentation, where they have a colon.
fn within(chunk: &str) -> Vec<String> {
    let inner: Vec<&str> = chunk.lines().skip(1).filter(|l| !l.trim().is_empty()).collect();
    let depth = |l: &&str| l.len() - l.trim_start_matches(' ').len();
    let least = inner.iter().map(depth).min().unwrap_or(0);
    let first = inner.iter().filter(|l| depth(l) == least && l.split_whitespace().any(|w| w == ":"));
    first.flat_map(|l| declared(l)).collect()
}

fn dotted(path: &str) -> Vec<String> {
    path.trim().split('.').map(|p| p.trim().to_string()).collect()
}

// `a`, `a as b` or `N.a` in the braces of a `use` line.
fn brought(one: &str) -> Brought {
    let words: Vec<&str> = one.split_whitespace().collect();
    let from = dotted(words.first().unwrap_or(&""));
    let name = words.get(2).map_or(from[from.len() - 1].clone(), |w| w.to_string());
    Brought { from, name }
}

// A `use` of definitions, without its word: `M.{a, b as c}`, `M.N` or `M.N as c`.
pub fn used(word: &'static str, tree: &str) -> Result<Use, String> {
    let tree = tree.split_whitespace().collect::<Vec<&str>>().join(" ");
    if tree.contains('*') && tree.ends_with(".*") {
        return Err(format!("'{} {}' brings names that it does not write.", word, tree));
    }
    if let Some((path, names)) = tree.split_once(".{") {
        let names = names.trim_end_matches('}').split(',').map(brought).collect();
        return Ok(Use { word, path: dotted(path), names, module: false });
    }
    let (path, name) = match tree.split_once(" as ") {
        Some((path, name)) => (dotted(path), name.trim().to_string()),
        None => (dotted(&tree), dotted(&tree).pop().unwrap_or_default()),
    };
    Ok(Use { word, path, names: vec![Brought { from: Vec::new(), name }], module: true })
}

fn item(names: Vec<String>, fields: Vec<String>, chunk: &str) -> Item {
    let (lines, words) = (text::lines(chunk, 0), text::names(chunk));
    Item { names, fields, lines, words, paths: Vec::new(), root: false, hidden: false }
}

// Why a chunk that begins with these words is not read, if it is not.
fn unread(words: &[&str], bare: &[&str]) -> Option<&'static str> {
    match (words, bare) {
        (_, ["use" | "mod" | "record" | "data"]) | (_, []) => Some("is cut short"),
        (_, ["infix" | "infixl" | "infixr"]) | (_, ["infix" | "infixl" | "infixr", _]) => Some("is cut short"),
        (["pub", "use", ..], _) => Some("is not read here; use each name where it is"),
        (_, ["open" | "ruleset" | "package", ..]) => Some("is not read here"),
        _ => None,
    }
}

// A chunk goes to the file: a `use`, a new item, or a clause of the last one.
fn add(file: &mut File, chunk: &str, place: &str) -> Result<(), String> {
    let words: Vec<&str> = chunk.split_whitespace().collect();
    let bare: Vec<&str> = words.iter().filter(|w| **w != "pub").copied().collect();
    if let Some(why) = unread(&words, &bare) {
        return Err(format!("{}: '{}' {}.", place, words[..words.len().min(2)].join(" "), why));
    }
    let named = |n: usize| vec![bare[n].to_string()];
    match bare[0] {
        "use" => {
            let one = used("use", chunk.trim_start_matches("use")).map_err(|why| format!("{}: {}", place, why))?;
            file.uses.push(one);
        }
        "mod" => file.below.extend(named(1)),
        "infix" | "infixl" | "infixr" => {
            let names = bare[2..].iter().map(|w| w.to_string()).collect();
            file.items.push(item(names, Vec::new(), chunk));
        }
        "record" => file.items.push(item(named(1), within(chunk), chunk)),
        "data" => file.items.push(item(named(1).into_iter().chain(within(chunk)).collect(), Vec::new(), chunk)),
        "module" | "mutual" => file.items.push(item(within(chunk), Vec::new(), chunk)),
        _ if is_signature(chunk) => file.items.push(item(declared(chunk)[..1].to_vec(), Vec::new(), chunk)),
        _ => match file.items.last_mut() {
            None => return Err(format!("{}: a clause without a signature.", place)),
            Some(last) => {
                last.lines.extend(text::lines(chunk, 0));
                last.words.extend(text::names(chunk));
            }
        },
    }
    Ok(())
}

// Reads a file of specs/: each line at the left margin begins a chunk.
pub fn read(path: &str, source: &str) -> Result<File, String> {
    let plain = text::without_dashes(path, source)?;
    let mut file = File::new(path);
    let lines = Some(0).into_iter().chain(plain.match_indices('\n').map(|(i, _)| i + 1));
    let starts: Vec<usize> = lines.filter(|i| plain[*i..].starts_with(|c: char| !c.is_whitespace())).collect();
    for (n, start) in starts.iter().enumerate() {
        let end = starts.get(n + 1).copied().unwrap_or(plain.len());
        add(&mut file, &plain[*start..end], &text::at(path, &plain, *start))?;
    }
    Ok(file)
}
