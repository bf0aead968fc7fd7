//! Holds the lists in docs/ to the tree, both ways: a name that a list cites must be declared where the list says, and what the tree
//! has of public functions and must-fail edits must stand in its list. Holds the list of promises to the clauses of the rules in the
//! same way, and what the definitions and the code cite of them.

use std::collections::BTreeSet;
use std::fs;
use std::path::{Path, PathBuf};

/// The repository's root.
pub fn root() -> PathBuf {
    Path::new(env!("CARGO_MANIFEST_DIR")).join("../..")
}

fn quoted(text: &str) -> impl Iterator<Item = String> + '_ {
    text.split('`').skip(1).step_by(2).map(String::from)
}

fn rows(text: &str) -> impl Iterator<Item = &str> {
    text.lines().filter(|line| line.starts_with("| "))
}

/// The names between backticks in the rows of a list's tables.
pub fn cited(text: &str) -> Vec<String> {
    rows(text).flat_map(quoted).collect()
}

/// The names between backticks anywhere in a text, prose and rows, but not in a block of code. A stray backtick spoils no more than
/// its own row or paragraph.
pub fn cited_anywhere(text: &str) -> Vec<String> {
    let mut names = Vec::new();
    let mut paragraph = String::new();
    let mut code = false;
    for line in text.lines().chain([""]) {
        let fence = line.trim_start().starts_with("```");
        if fence || code || line.trim().is_empty() || line.starts_with("| ") {
            names.extend(quoted(&paragraph));
            paragraph.clear();
        }
        if fence {
            code = !code;
        } else if !code && line.starts_with("| ") {
            names.extend(quoted(line));
        } else if !code {
            paragraph.push_str(line);
            paragraph.push('\n');
        }
    }
    names
}

/// The newest part of a text that tells history: from its last heading on.
pub fn newest(text: &str) -> &str {
    let heading = text.rfind("\n## ").map(|at| at + 1);
    &text[heading.unwrap_or(0)..]
}

/// The names between backticks in the first cells of a list's tables.
pub fn listed(text: &str) -> BTreeSet<String> {
    rows(text).flat_map(|row| quoted(row[1..].split(" | ").next().unwrap_or(""))).collect()
}

/// The numbers of the clauses in a text of rules, in its order: a clause begins its line with `- **`, its number and `**`.
pub fn clauses(text: &str) -> Vec<String> {
    text.lines().filter_map(|line| Some(line.strip_prefix("- **")?.split_once("**")?.0.to_string())).collect()
}

fn cells(row: &str) -> Vec<&str> {
    row.trim_matches('|').split(" | ").map(str::trim).collect()
}

/// The rows of a list's tables by clause, each as its cells, without the tables' headers.
pub fn clause_rows(text: &str) -> Vec<Vec<&str>> {
    rows(text).map(cells).filter(|cells| cells[0] != "clause").collect()
}

/// The numbers in the first cells of a list's tables by clause, in its order.
pub fn clauses_listed(text: &str) -> Vec<String> {
    clause_rows(text).iter().map(|cells| cells[0].to_string()).collect()
}

/// The clauses that stand more than once.
pub fn twice(clauses: &[String]) -> Vec<String> {
    let mut seen = BTreeSet::new();
    clauses.iter().filter(|clause| !seen.insert(*clause)).cloned().collect()
}

/// The clauses of the first that are not among the second.
pub fn without(clauses: &[String], others: &[String]) -> Vec<String> {
    clauses.iter().filter(|clause| !others.contains(clause)).cloned().collect()
}

/// Whether a word can be the number of a clause: a capital letter, and behind it a number or the letter of a worked case.
fn is_clause(word: &str) -> bool {
    let mut letters = word.chars();
    let group = letters.next().is_some_and(|c| c.is_ascii_uppercase());
    let rest = letters.as_str();
    let number = !rest.is_empty() && rest.chars().all(|c| c.is_ascii_digit());
    let letter = rest.len() == 1 && rest.chars().all(|c| c.is_ascii_uppercase());
    group && (number || letter)
}

/// The clauses that the comments of a text cite, between square brackets: one, some parted by commas, or the first and the last of
/// some, as in `[A6]`, `[R11, R12]` and `[A1 to A11]`.
pub fn clauses_cited(text: &str, comment: &str) -> Vec<String> {
    let mut found = Vec::new();
    for line in text.lines() {
        let said = line.split_once(comment).map_or("", |(_, said)| said);
        for (inside, _) in said.split('[').skip(1).filter_map(|part| part.split_once(']')) {
            let words: Vec<&str> = inside.split(", ").flat_map(|some| some.split(" to ")).collect();
            if words.iter().all(|word| is_clause(word)) {
                found.extend(words.iter().map(|word| word.to_string()));
            }
        }
    }
    found
}

/// The clauses that the tree's definitions and code cite in their comments.
pub fn clauses_in_crates(root: &Path) -> BTreeSet<String> {
    let mut found = BTreeSet::new();
    for (_, home) in crates(root) {
        for (part, ending, comment) in [("specs", ".antt", "--"), ("src", ".rt", "//")] {
            for file in files(&home.join(part), ending) {
                found.extend(clauses_cited(&fs::read_to_string(file).unwrap_or_default(), comment));
            }
        }
    }
    found
}

fn files(dir: &Path, ending: &str) -> Vec<PathBuf> {
    let mut found = Vec::new();
    for entry in fs::read_dir(dir).into_iter().flatten().flatten() {
        let path = entry.path();
        if path.is_dir() {
            found.extend(files(&path, ending));
        } else if path.to_string_lossy().ends_with(ending) {
            found.push(path);
        }
    }
    found
}

/// The crates of the tree, each with its name.
fn crates(root: &Path) -> Vec<(String, PathBuf)> {
    let homes = fs::read_dir(root.join("crates")).into_iter().flatten().flatten();
    homes.map(|home| (home.file_name().to_string_lossy().into_owned(), home.path())).collect()
}

fn word(text: &str) -> &str {
    text.split(|c: char| !c.is_alphanumeric() && c != '_').next().unwrap_or("")
}

/// What a line of source declares, without its marks, if it is public to other crates.
fn public(line: &str) -> Option<&str> {
    let line = line.trim_start().strip_prefix("pub ")?;
    Some(line.trim_start_matches("const ").trim_start_matches("extern \"C\" "))
}

fn public_of(home: &Path) -> Vec<String> {
    let mut names = Vec::new();
    for file in files(&home.join("src"), ".rt") {
        let text = fs::read_to_string(file).unwrap_or_default();
        names.extend(text.lines().filter_map(|line| Some(word(public(line)?.strip_prefix("fn ")?).to_string())));
    }
    names
}

fn public_where(root: &Path, program: bool) -> BTreeSet<String> {
    let homes = crates(root).into_iter().filter(|(_, home)| home.join("src/main.rt").is_file() == program);
    homes.flat_map(|(krate, home)| public_of(&home).into_iter().map(move |name| format!("{krate}::{name}"))).collect()
}

/// The public functions of the tree's libraries, methods by their name, as `crate::name`.
pub fn public_functions(root: &Path) -> BTreeSet<String> {
    public_where(root, false)
}

/// The public functions of the tree's programs: there should be none.
pub fn public_in_programs(root: &Path) -> BTreeSet<String> {
    public_where(root, true)
}

/// The public functions of the tree's libraries that a list does not have in its first cells.
pub fn unlisted(root: &Path, text: &str) -> Vec<String> {
    public_functions(root).difference(&listed(text)).cloned().collect()
}

/// The names in a list's first cells that are no public functions of the tree's libraries.
pub fn not_public(root: &Path, text: &str) -> Vec<String> {
    listed(text).difference(&public_functions(root)).cloned().collect()
}

/// The must-fail edits of the tree, as `crate/must-fail/label`.
pub fn edits(root: &Path) -> BTreeSet<String> {
    let mut names = BTreeSet::new();
    for (krate, home) in crates(root) {
        let labels = files(&home.join("must-fail"), ".edit");
        names.extend(labels.iter().filter_map(|file| Some(format!("{krate}/must-fail/{}", file.file_stem()?.to_string_lossy()))));
    }
    names
}

/// The edits of the tree that a list's rows do not cite.
pub fn uncited(root: &Path, text: &str) -> Vec<String> {
    let named: BTreeSet<String> = cited(text).into_iter().collect();
    edits(root).difference(&named).cloned().collect()
}

/// The names that are not in the tree.
pub fn missing(root: &Path, names: Vec<String>) -> Vec<String> {
    names.into_iter().filter(|name| holds(root, name) == Some(false)).collect()
}

fn declares_item(text: &str, name: &str) -> bool {
    text.lines().any(|line| {
        let line = line.trim_start();
        let line = ["pub(crate) ", "pub ", "extern \"C\" "].iter().fold(line, |l, mark| l.strip_prefix(mark).unwrap_or(l));
        ["fn ", "struct ", "enum ", "const "].iter().any(|kind| line.strip_prefix(kind).is_some_and(|rest| word(rest) == name))
    })
}

fn declares_name(text: &str, name: &str) -> bool {
    text.lines().any(|line| {
        let line = line.trim_start();
        let line = ["abbrev ", "unfoldable ", "pub ", "record ", "data "].iter().fold(line, |l, mark| l.strip_prefix(mark).unwrap_or(l));
        line.strip_prefix(name).is_some_and(|rest| rest.starts_with(" :") || rest.starts_with(" (") || rest.starts_with(" {"))
    })
}

/// Whether a cited name is in the tree. `crate::item` is an item of the crate's source, `crate/must-fail/label` an edit, and
/// `crate/Module.name` a declaration in the crate's specs/ or proofs/. Any other word between backticks cites nothing, nor does the
/// path of a file: one that starts with a folder of the repository.
pub fn holds(root: &Path, name: &str) -> Option<bool> {
    if name.contains(char::is_whitespace) {
        return None;
    }
    if let Some((krate, item)) = name.split_once("::") {
        let item = item.rsplit("::").next().unwrap_or(item);
        let sources = files(&root.join("crates").join(krate).join("src"), ".rt");
        return Some(sources.iter().any(|f| declares_item(&fs::read_to_string(f).unwrap_or_default(), item)));
    }
    let (krate, rest) = name.split_once('/')?;
    if krate.is_empty() || root.join(krate).is_dir() {
        return None;
    }
    if let Some(label) = rest.strip_prefix("must-fail/") {
        return Some(root.join("crates").join(krate).join("must-fail").join(format!("{label}.edit")).is_file());
    }
    let (module, item) = rest.split_once('.')?;
    let home = root.join("crates").join(krate);
    Some(["specs", "proofs"].iter().any(|part| {
        let file = home.join(part).join(format!("{}.antt", module.replace("::", "/")));
        declares_name(&fs::read_to_string(file).unwrap_or_default(), item)
    }))
}
