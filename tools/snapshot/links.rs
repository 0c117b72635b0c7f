// The links of README.md and docs/ to the snapshot: each names a section, and in backquotes what stands there.
use crate::tree::text_of;
use std::collections::BTreeMap;
use std::path::Path;

// The words of each section, by the name that a link gives it.
fn sections(page: &str) -> BTreeMap<String, Vec<String>> {
    let mut found: BTreeMap<String, Vec<String>> = BTreeMap::new();
    let mut at = String::new();
    for line in page.lines() {
        if let Some(heading) = line.strip_prefix("## ").or_else(|| line.strip_prefix("### ")) {
            at = heading.to_lowercase().replace(' ', "-");
        }
        let words = line.split(|c: char| c.is_whitespace() || "(){};,.:<".contains(c));
        found.entry(at.clone()).or_default().extend(words.filter(|w| !w.is_empty()).map(str::to_string));
    }
    found
}

// What is wrong with a link: its text, and the section that it names.
fn wrong(sections: &BTreeMap<String, Vec<String>>, text: &str, to: &str) -> Option<String> {
    let words = match sections.get(to) {
        None => return Some(format!("there is no section '{}'", to)),
        Some(words) => words,
    };
    let names = text.split('`').skip(1).step_by(2);
    let mut parts =
        names.flat_map(|n| n.split(|c: char| c.is_whitespace() || ".:".contains(c)).filter(|p| !p.is_empty()));
    let missing = parts.find(|p| !words.iter().any(|w| w == p));
    missing.map(|name| format!("'{}' does not stand in the section '{}'", name, to))
}

// Complaints about one file's links.
fn complaints(file: &str, text: &str, sections: &BTreeMap<String, Vec<String>>) -> Vec<String> {
    let mut found = Vec::new();
    for (n, line) in text.lines().enumerate() {
        for (i, _) in line.match_indices("STATEMENTS.md#") {
            let to = line[i + "STATEMENTS.md#".len()..].split(')').next().unwrap_or("");
            let shown = line[..i].rfind("](").and_then(|end| line[..end].rfind('[').map(|start| &line[start..end]));
            if let Some(why) = wrong(sections, shown.unwrap_or(""), to) {
                found.push(format!("{}, line {}: {}", file, n + 1, why));
            }
        }
    }
    found
}

pub fn follow(root: &Path, page: &Path) -> Result<(), String> {
    let sections = sections(&text_of(page)?);
    let mut found = complaints("README.md", &text_of(&root.join("README.md"))?, &sections);
    let folder = root.join("docs");
    let unread = |why| format!("'{}' cannot be read: {}.", folder.display(), why);
    let entries = std::fs::read_dir(&folder).map_err(unread)?;
    let mut names: Vec<String> = entries.flatten().map(|e| e.file_name().to_string_lossy().into_owned()).collect();
    names.sort();
    for name in names.iter().filter(|n| n.ends_with(".md")) {
        found.extend(complaints(&format!("docs/{}", name), &text_of(&folder.join(name))?, &sections));
    }
    if found.is_empty() {
        return Ok(());
    }
    Err(format!("links to the snapshot that lead nowhere:\n{}", found.join("\n")))
}
