// One file of src/: its declared types, and the headers with contracts of its functions. Left out are bodies, and the
// prover's hints, `#[tactic(..)]`.
use crate::definitions;
use crate::text;
use crate::tree::{Brought, File, Item, Use};

// A piece of code: a word, one other character, a quoted text, or a clause's term of antt, by its place in the source.
#[derive(Clone, Copy, PartialEq)]
enum Kind {
    Word,
    Mark,
    Quoted,
    Clause,
    Ghost,
}

#[derive(Clone, Copy)]
struct Piece {
    kind: Kind,
    start: usize,
    end: usize,
}

// The source, with its comments blank, as pieces.
struct Code<'a> {
    path: &'a str,
    text: String,
    pieces: Vec<Piece>,
}

fn is_word(c: char) -> bool {
    c.is_alphanumeric() || c == '_'
}

// The end of a run of characters from a place on.
fn run(text: &str, from: usize, test: impl Fn(char) -> bool) -> usize {
    text[from..].find(|c| !test(c)).map_or(text.len(), |n| from + n)
}

// The place after the end of a quoted text or character that begins at a place; a lifetime's mark is one character.
fn quoted(text: &str, from: usize) -> usize {
    let mark = text[from..].chars().next().unwrap_or('"');
    let inside: Vec<(usize, char)> = text[from + 1..].char_indices().collect();
    let closes = |n: usize| inside.get(n).map_or(false, |(_, c)| *c == '\'');
    if mark == '\'' && !closes(1) && !inside.first().map_or(false, |(_, c)| *c == '\\') {
        return from + 1;
    }
    let mut escaped = false;
    for (i, c) in inside {
        if c == mark && !escaped {
            return from + 1 + i + 1;
        }
        escaped = c == '\\' && !escaped;
    }
    text.len()
}

// The place after the brace that closes the one at a place.
fn braced(text: &str, from: usize) -> usize {
    let mut depth = 0;
    for (i, c) in text[from..].char_indices() {
        match c {
            '{' => depth += 1,
            '}' if depth == 1 => return from + i + 1,
            '}' => depth -= 1,
            _ => {}
        }
    }
    text.len()
}

// The brace of a clause whose word ends at a place, if it is one: `ensures {`, `ensures name {` or `ensures* name {`.
fn clause(source: &str, end: usize) -> Option<usize> {
    let star = if source[end..].starts_with('*') { end + 1 } else { end };
    let name = run(source, star, char::is_whitespace);
    let brace = run(source, run(source, name, is_word), char::is_whitespace);
    Some(brace).filter(|b| source[*b..].starts_with('{'))
}

// The brace of a ghost member whose name begins at a place: `NAME = {` or `NAME: {`.
fn member(source: &str, start: usize) -> Option<usize> {
    let mark = run(source, run(source, start, is_word), char::is_whitespace);
    let brace = run(source, mark + 1, char::is_whitespace);
    Some(brace).filter(|b| source[mark..].starts_with(['=', ':']) && source[*b..].starts_with('{'))
}

// The piece that begins with a word's character: a word, a clause with its term, or a `ghost use` up to its semicolon.
fn worded(path: &str, source: &str, start: usize) -> Result<Piece, String> {
    let end = run(source, start, is_word);
    let next = run(source, end, char::is_whitespace);
    let word = &source[start..end];
    if let (true, Some(brace)) = (["requires", "ensures"].contains(&word), clause(source, end)) {
        return Ok(Piece { kind: Kind::Clause, start, end: braced(source, brace) });
    }
    match (word, source[next..].starts_with("use")) {
        ("ghost", true) => Ok(Piece { kind: Kind::Ghost, start, end: run(source, start, |c| c != ';') }),
        ("ghost", false) => match member(source, next) {
            Some(brace) => Ok(Piece { kind: Kind::Clause, start, end: braced(source, brace) }),
            None => Err(format!("{}: 'ghost' is not read here.", text::at(path, source, start))),
        },
        _ => Ok(Piece { kind: Kind::Word, start, end }),
    }
}

fn cut<'a>(path: &'a str, source: &str) -> Result<Code<'a>, String> {
    let mut code = Code { path, text: source.to_string(), pieces: Vec::new() };
    let mut i = 0;
    while i < source.len() {
        let c = source[i..].chars().next().unwrap_or(' ');
        if c.is_whitespace() {
            i += c.len_utf8();
        } else if source[i..].starts_with("/*") {
            return Err(format!("{}: a block comment is not read here; write '//'.", text::at(path, source, i)));
        } else if source[i..].starts_with("//") {
            let end = run(source, i, |c| c != '\n');
            code.text.replace_range(i..end, &" ".repeat(end - i));
            i = end;
        } else {
            let piece = match c {
                '"' | '\'' => Piece { kind: Kind::Quoted, start: i, end: quoted(source, i) },
                _ if is_word(c) => worded(path, source, i)?,
                _ => Piece { kind: Kind::Mark, start: i, end: i + c.len_utf8() },
            };
            code.pieces.push(piece);
            i = piece.end;
        }
    }
    code.without_hints();
    Ok(code)
}

impl Code<'_> {
    fn word(&self, n: usize) -> &str {
        self.pieces.get(n).map_or("", |p| &self.text[p.start..p.end])
    }

    fn refusal(&self, n: usize) -> String {
        let place = text::at(self.path, &self.text, self.pieces.get(n).map_or(self.text.len(), |p| p.start));
        format!("{}: '{}' begins a form that is not read here.", place, self.word(n))
    }

    fn refuse<T>(&self, n: usize) -> Result<T, String> {
        Err(self.refusal(n))
    }

    // The prover's hints become blank, as comments are.
    fn without_hints(&mut self) {
        let mut n = 0;
        while n < self.pieces.len() {
            if (0..4).any(|m| self.word(n + m) != ["#", "[", "tactic", "("][m]) {
                n += 1;
                continue;
            }
            let after = self.closed(n + 1);
            let (start, end) = (self.pieces[n].start, self.pieces[after - 1].end);
            let blank: String = self.text[start..end].bytes().map(|b| if b == b'\n' { '\n' } else { ' ' }).collect();
            self.text.replace_range(start..end, &blank);
            self.pieces.drain(n..after);
        }
    }

    // The piece after the closing mark that belongs to the opening one at n.
    fn closed(&self, n: usize) -> usize {
        let (open, close) = match self.word(n) {
            "(" => ("(", ")"),
            "[" => ("[", "]"),
            _ => ("{", "}"),
        };
        let mut depth = 0;
        for m in n..self.pieces.len() {
            if self.word(m) == open {
                depth += 1;
            } else if self.word(m) == close {
                depth -= 1;
                if depth == 0 {
                    return m + 1;
                }
            }
        }
        self.pieces.len()
    }

    // The first piece from n on that is one of the words, brackets passed over.
    fn until(&self, mut n: usize, words: &[&str]) -> usize {
        while n < self.pieces.len() && !words.contains(&self.word(n)) {
            n = if ["(", "["].contains(&self.word(n)) { self.closed(n) } else { n + 1 };
        }
        n
    }

    // The text of the pieces a to b as an item: its terms are its clauses', its code is what stands outside of them.
    fn item(&self, name: String, a: usize, b: usize, root: bool, inside: Option<&str>) -> Item {
        let (start, end) = (self.pieces[a].start, self.pieces[b - 1].end);
        let margin = start - self.text[..start].rfind('\n').map_or(0, |i| i + 1);
        let mut lines = text::lines(&self.text[start..end], margin);
        if let Some(owner) = inside {
            lines = lines.iter().map(|l| format!("    {}", l)).collect();
            lines.insert(0, format!("impl {}", owner));
        }
        let clauses = self.pieces[a..b].iter().filter(|p| p.kind == Kind::Clause);
        let term = |p: &Piece| self.text[p.start..p.end].split_once('{').map_or("", |(_, term)| term);
        let words = clauses.flat_map(|p| text::names(term(p))).collect();
        let mut paths: Vec<Vec<String>> = inside.iter().map(|owner| vec![owner.to_string()]).collect();
        for n in a..b {
            let joined = n >= a + 2 && self.word(n - 1) == ":" && self.word(n - 2) == ":";
            match (self.pieces[n].kind, joined, paths.last_mut()) {
                (Kind::Word, true, Some(last)) => last.push(self.word(n).to_string()),
                (Kind::Word, _, _) => paths.push(vec![self.word(n).to_string()]),
                _ => {}
            }
        }
        Item { names: vec![name], fields: Vec::new(), lines, words, paths, root, hidden: false }
    }
}

// `use a::b;`, `use a::b as c;` or `use a::{b, c};`.
fn used(code: &Code, n: usize, end: usize) -> Result<Use, String> {
    let tree = &code.text[code.pieces[n].end..code.pieces[end].start];
    let (path, names) = match tree.split_once("::{") {
        Some((path, names)) => (path, names.trim().trim_end_matches('}').to_string()),
        None => tree.rsplit_once("::").map_or(("", tree.to_string()), |(path, name)| (path, name.to_string())),
    };
    if names.contains('*') || names.contains("::") {
        return code.refuse(n);
    }
    let one = |name: &str| {
        let words: Vec<&str> = name.split_whitespace().collect();
        let from = words.first().unwrap_or(&"").to_string();
        Brought { name: words.get(2).map_or(from.clone(), |w| w.to_string()), from: vec![from] }
    };
    let path = path.split("::").map(|p| p.trim().to_string()).filter(|p| !p.is_empty()).collect();
    let names = names.split(',').filter(|n| !n.trim().is_empty()).map(one).collect();
    Ok(Use { word: "code", path, names, module: false })
}

// Whether the function whose word `fn` is at n, and its body at another place, has a contract and an empty body.
fn holds_promise(code: &Code, n: usize, body: usize) -> bool {
    let claims = code.pieces[n..body].iter().any(|p| p.kind == Kind::Clause);
    claims && code.word(body) == "{" && code.closed(body) == body + 2
}

// A function from piece a on, its word `fn` at n. Public, or holding a promise (a contract, no body), it is a
// root; any other is passed over.
fn function(code: &Code, file: &mut File, a: usize, n: usize, public: bool, owner: Option<&str>) -> usize {
    let body = code.until(n, &["{"]);
    let end = code.closed(body);
    if public || holds_promise(code, n, body) {
        let name = code.word(n + 1).to_string();
        file.items.push(code.item(name, a, body, true, owner));
    }
    end
}

// A trait at n that is not public, or an `impl` of one, is passed over, unless a function of it holds a promise.
fn passed(code: &Code, n: usize) -> Result<usize, String> {
    let end = code.closed(code.until(n, &["{"]));
    let mut functions = (n..end).filter(|m| code.word(*m) == "fn");
    match functions.find(|m| holds_promise(code, *m, code.until(*m, &["{", ";"]))) {
        Some(m) => code.refuse(m),
        None => Ok(end),
    }
}

// What an `impl` of From or TryFrom states, from piece a on, its word at n: all that stands in it but the bodies of its
// functions.
fn conversion(code: &Code, file: &mut File, a: usize, n: usize) -> Result<usize, String> {
    let body = code.until(n, &["{"]);
    let end = code.closed(body);
    if code.word(body) != "{" {
        return code.refuse(n);
    }
    let mut item = code.item(code.word(n + 1).to_string(), a, body + 1, true, None);
    let mut first = body + 1;
    while first < end - 1 {
        let (_, m) = marks(code, first);
        let (stop, next) = match (code.word(m), code.pieces.get(m).map(|p| p.kind)) {
            ("fn", _) => (code.until(m, &["{"]), code.closed(code.until(m, &["{"]))),
            ("type" | "const", _) | (_, Some(Kind::Clause)) => (code.until(m, &[";"]) + 1, code.until(m, &[";"]) + 1),
            _ => return code.refuse(m),
        };
        if next >= end {
            return code.refuse(m);
        }
        let member = code.item(String::new(), first, stop, false, None);
        item.lines.extend(member.lines.iter().map(|l| format!("    {}", l)));
        item.words.extend(member.words);
        item.paths.extend(member.paths);
        first = next;
    }
    item.lines.push("}".to_string());
    file.items.push(item);
    Ok(end)
}

// What stands before a declaration's own word: whether it is public, and where that word is.
fn marks(code: &Code, first: usize) -> (bool, usize) {
    let mut n = first;
    while code.word(n) == "#" {
        n = code.closed(n + 1);
    }
    let exported = (first..n).any(|m| code.word(m) == "no_mangle");
    let public = code.word(n) == "pub" && code.word(n + 1) != "(";
    if code.word(n) == "pub" {
        n = if public { n + 1 } else { code.closed(n + 1) };
    }
    if code.word(n) == "extern" {
        n += 2;
    }
    (public || exported, n)
}

// A `ghost use`, which is one of definitions.
fn ghost(code: &Code, n: usize) -> Result<Use, String> {
    let tree = code.word(n)["ghost".len()..].trim_start().trim_start_matches("use");
    let place = || text::at(code.path, &code.text, code.pieces[n].start);
    definitions::used("ghost use", tree).map_err(|why| format!("{}: {}", place(), why))
}

// The declarations from piece n up to `end`, of the file or of an `impl`.
fn declarations(code: &Code, file: &mut File, from: usize, end: usize, owner: Option<&str>) -> Result<(), String> {
    let mut first = from;
    while first < end {
        if (code.word(first), code.word(first + 1)) == ("#", "!") {
            first = code.closed(first + 2);
            continue;
        }
        let (public, n) = marks(code, first);
        first = match (code.word(n), code.pieces.get(n).map(|p| p.kind)) {
            (_, Some(Kind::Ghost)) => {
                file.uses.push(ghost(code, n)?);
                n + 2
            }
            ("use", _) if code.until(n, &[";"]) < end => {
                let stop = code.until(n, &[";"]);
                file.uses.push(used(code, n, stop)?);
                stop + 1
            }
            ("mod", _) if code.word(n + 2) == ";" => n + 3,
            ("fn", _) => function(code, file, first, n, public, owner),
            ("struct" | "enum" | "const" | "type", _) => {
                let stop = code.until(n, &[";", "{", "="]);
                let stop = if code.word(stop) == "{" { code.closed(stop) } else { code.until(stop, &[";"]) + 1 };
                if stop > end {
                    return code.refuse(n);
                }
                file.items.push(code.item(code.word(n + 1).to_string(), first, stop, public, None));
                stop
            }
            ("impl", _) if owner.is_none() && code.word(n + 2) == "{" => {
                let stop = code.closed(n + 2);
                declarations(code, file, n + 3, stop - 1, Some(code.word(n + 1)))?;
                stop
            }
            ("impl", _) if owner.is_none() && ["From", "TryFrom"].contains(&code.word(n + 1)) => {
                conversion(code, file, first, n)?
            }
            // That the trait is not public is seen when all files are read.
            ("impl", _) if owner.is_none() && code.word(n + 2) == "for" => {
                file.passed.push((code.word(n + 1).to_string(), code.refusal(n)));
                passed(code, n)?
            }
            ("trait", _) if owner.is_none() && !public && n + 2 < end => {
                let mut item = code.item(code.word(n + 1).to_string(), first, n + 2, false, None);
                item.hidden = true;
                file.items.push(item);
                passed(code, n)?
            }
            _ => return code.refuse(n),
        };
    }
    Ok(())
}

pub fn read(path: &str, source: &str) -> Result<File, String> {
    let code = cut(path, source)?;
    let mut file = File::new(path);
    let end = code.pieces.len();
    declarations(&code, &mut file, 0, end, None)?;
    Ok(file)
}
