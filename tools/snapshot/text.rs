// A text without its comments, and the names that stand in it.

// Where a text begins: what a complaint names.
pub fn at(file: &str, text: &str, place: usize) -> String {
    let line = text[..place].matches('\n').count() + 1;
    format!("{}, line {}", file, line)
}

// A copy of the same length in which each comment of a definition is blank. Refused are block comments, and dashes of
// which it is not plain that they begin a comment: nothing that may be a statement is ever passed over.
pub fn without_dashes(file: &str, text: &str) -> Result<String, String> {
    let mut out = String::with_capacity(text.len());
    let mut before = ' ';
    let mut closing = ' ';
    let mut comment = false;
    for (i, c) in text.char_indices() {
        let rest = &text[i..];
        if c == '\n' {
            comment = false;
        } else if !comment && closing != ' ' {
            closing = if c == closing && before != '\\' { ' ' } else { closing };
        } else if !comment && (c == '"' || c == '«') {
            closing = if c == '"' { '"' } else { '»' };
        } else if !comment && (rest.starts_with("{-") || rest.starts_with("-}")) {
            return Err(format!("{}: a block comment is not read here; write '-- '.", at(file, text, i)));
        } else if !comment && rest.starts_with("--") && (before.is_whitespace() || "(){};,.".contains(before)) {
            let after = rest.trim_start_matches('-').chars().next();
            if after.map_or(false, |c| !c.is_whitespace()) {
                return Err(format!("{}: a comment begins with '-- ', a blank after the dashes.", at(file, text, i)));
            }
            comment = true;
        }
        match comment {
            true => out.extend(std::iter::repeat(' ').take(c.len_utf8())),
            false => out.push(c),
        }
        before = c;
    }
    Ok(out)
}

fn separates(c: char) -> bool {
    c.is_whitespace() || "(){};,@\"⌜⌝⟦⟧".contains(c)
}

// The names in a term of antt, each as its parts: `call.Tick` has two; of `t.rest` only t is a name.
pub fn names(text: &str) -> Vec<Vec<String>> {
    let mut found = Vec::new();
    let mut parts: Vec<String> = Vec::new();
    let mut name = String::new();
    let mut field = false;
    for c in text.chars().chain(" ".chars()) {
        if c == '.' && !name.is_empty() {
            parts.push(std::mem::take(&mut name));
        } else if c == '.' {
            field = parts.is_empty();
        } else if !separates(c) {
            name.push(c);
        } else {
            if !name.is_empty() {
                parts.push(std::mem::take(&mut name));
            }
            if !field && !parts.is_empty() {
                found.push(std::mem::take(&mut parts));
            }
            parts.clear();
            field = false;
        }
    }
    found
}

// Whether a name is written by this word: the name itself, or a part of an operator's (`◌and◌` by `and` or `◌and`).
pub fn writes(word: &str, name: &str) -> bool {
    let plain = |w: &str| w.trim_matches(|c| c == '«' || c == '»').to_string();
    let part = word.trim_matches('◌');
    let parts = !name.starts_with('«') && name.contains('◌') && !part.is_empty();
    plain(word) == plain(name) || (parts && name.split('◌').any(|p| p == part))
}

// The lines of a text that are not blank, moved left by the indentation of the first.
pub fn lines(text: &str, indent: usize) -> Vec<String> {
    let moved = |l: &str| {
        let lead = l.len() - l.trim_start_matches(' ').len();
        l[lead.min(indent)..].trim_end().to_string()
    };
    text.lines().filter(|l| !l.trim().is_empty()).map(moved).collect()
}
