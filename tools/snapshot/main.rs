// The snapshot of everything promised: `page ROOT` prints it, `links ROOT PAGE` follows the links to it. ROOT is the
// folder with crates.txt. Status 1 and a sentence where something cannot be read.
mod definitions;
mod links;
mod page;
mod reach;
mod sources;
mod text;
mod tree;

use std::path::Path;

fn run(words: &[String]) -> Result<(), String> {
    let words: Vec<&str> = words.iter().map(String::as_str).collect();
    match words.as_slice() {
        ["page", root] => {
            let tree = tree::read(Path::new(root))?;
            let reached = reach::from_roots(&tree)?;
            print!("{}", page::of(&tree, &reached)?);
            Ok(())
        }
        ["links", root, page] => links::follow(Path::new(root), Path::new(page)),
        _ => Err("give 'page ROOT' or 'links ROOT PAGE'.".to_string()),
    }
}

fn main() {
    let words: Vec<String> = std::env::args().skip(1).collect();
    if let Err(why) = run(&words) {
        eprintln!("tools/statements: {}", why);
        std::process::exit(1);
    }
}
