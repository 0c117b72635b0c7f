// The snapshot as a page: a section for each file of a crate's src/ and specs/ that has something promised or reached.
use crate::reach::{brings, Place};
use crate::tree::{File, Item, Tree, Use};
use std::collections::BTreeSet;

const HEAD: &str = "# Statements

Everything that is promised, as it stands in the sources, comments aside. `tools/statements` writes this page, and
`tools/statements --check` holds it to the sources; it is never edited by hand. What each statement is for is said in
`PROMISES.md`.

For each crate, by file: its public types, its public functions with their contracts, and the functions that only hold
a promise; then every record and definition that these reach by name, also from another crate. Above the items of a
file stands what they take from elsewhere.
";

// The lines of a `use`, with those of its names that the items write.
fn used(one: &Use, items: &[&Item]) -> Option<String> {
    let words = || items.iter().flat_map(|i| i.words.iter().chain(&i.paths)).map(|w| w[0].as_str());
    let kept: BTreeSet<usize> = words().flat_map(|w| brings(one, w)).collect();
    if kept.is_empty() {
        return None;
    }
    let shown = |n: &usize| {
        let b = &one.names[*n];
        let from = b.from.join(".");
        if b.from.last() == Some(&b.name) {
            from
        } else {
            format!("{} as {}", from, b.name)
        }
    };
    let names: Vec<String> = kept.iter().map(shown).collect();
    Some(match (one.word, one.module) {
        ("code", _) if names.len() == 1 => format!("use {}::{}", one.path.join("::"), names[0]),
        ("code", _) => format!("use {}::{{{}}}", one.path.join("::"), names.join(", ")),
        (word, false) => format!("{} {}.{{{}}}", word, one.path.join("."), names.join(", ")),
        (word, true) if one.path.last() == Some(&one.names[0].name) => format!("{} {}", word, one.path.join(".")),
        (word, true) => format!("{} {} as {}", word, one.path.join("."), one.names[0].name),
    })
}

// A section: its heading by crate, folder and module, so that a link can name it; the file; what is taken from
// elsewhere; the items.
fn section(file: &File, items: &[&Item]) -> String {
    let (name, folder, module) = file.parts();
    let uses: Vec<String> = file.uses.iter().filter_map(|u| used(u, items)).collect();
    let mut blocks: Vec<String> = items.iter().map(|i| i.lines.join("\n")).collect();
    if !uses.is_empty() {
        blocks.insert(0, uses.join("\n"));
    }
    let heading = format!("### {} {} {}", name, folder, module.replace('/', " "));
    format!("\n{}\n\n`{}`\n\n```text\n{}\n```\n", heading, file.path, blocks.join("\n\n"))
}

pub fn of(tree: &Tree, reached: &BTreeSet<Place>) -> Result<String, String> {
    let mut page = HEAD.to_string();
    for name in &tree.crates {
        page.extend(["\n## ", name, "\n"]);
        let before = page.len();
        for (f, file) in tree.files.iter().enumerate().filter(|(_, file)| file.parts().0 == name) {
            let items: Vec<&Item> = reached.range((f, 0)..(f + 1, 0)).map(|p| &file.items[p.1]).collect();
            if !items.is_empty() {
                page.push_str(&section(file, &items));
            }
        }
        if page.len() == before {
            page.push_str("\nNothing that another crate can use, and no contract.\n");
        }
    }
    match page.lines().find(|l| l.starts_with("```") && *l != "```" && *l != "```text") {
        Some(line) => Err(format!("'{}' in a statement would end its block.", line)),
        None => Ok(page),
    }
}
