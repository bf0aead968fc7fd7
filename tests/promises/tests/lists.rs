use promises::{cited, cited_anywhere, clause_rows, clauses, clauses_cited, clauses_in_crates, clauses_listed, twice, without};
use promises::{edits, holds, listed, missing, newest, not_public, public_functions, public_in_programs, root, uncited, unlisted};
use std::collections::BTreeSet;
use std::fs;
use std::ops::Deref;
use std::path::{Path, PathBuf};

const NONE: Vec<String> = Vec::new();

fn list(name: &str) -> String {
    fs::read_to_string(root().join(name)).expect("the list is there")
}

/// A made-up repository. It stands outside this one, where the prover takes no source but a crate's, and goes when it is let go.
struct MadeUp(PathBuf);

impl Deref for MadeUp {
    type Target = Path;
    fn deref(&self) -> &Path {
        &self.0
    }
}

impl Drop for MadeUp {
    fn drop(&mut self) {
        let _ = fs::remove_dir_all(&self.0);
    }
}

/// A made-up repository with these files.
fn made_up(name: &str, files: &[(&str, &str)]) -> MadeUp {
    let home = std::env::temp_dir().join(format!("promises-{}-{name}", std::process::id()));
    for (path, text) in files {
        let file = home.join(path);
        fs::create_dir_all(file.parent().unwrap()).unwrap();
        fs::write(file, text).unwrap();
    }
    MadeUp(home)
}

fn set(names: &[&str]) -> BTreeSet<String> {
    names.iter().map(|name| name.to_string()).collect()
}

#[test]
fn every_name_in_promises_is_in_the_tree() {
    assert_eq!(missing(&root(), cited(&list("docs/PROMISES.md"))), NONE);
}

#[test]
fn every_name_in_unpinned_is_in_the_tree() {
    assert_eq!(missing(&root(), cited_anywhere(&list("docs/UNPINNED.md"))), NONE);
}

#[test]
fn every_name_in_sources_is_in_the_tree() {
    assert_eq!(missing(&root(), cited_anywhere(&list("docs/SOURCES.md"))), NONE);
}

#[test]
fn every_name_in_decisions_is_in_the_tree() {
    assert_eq!(missing(&root(), cited_anywhere(&list("docs/DECISIONS.md"))), NONE);
}

#[test]
fn every_name_in_the_newest_changes_is_in_the_tree() {
    assert_eq!(missing(&root(), cited_anywhere(newest(&list("docs/CHANGES.md")))), NONE);
}

#[test]
fn every_public_function_is_listed_in_unpinned() {
    assert_eq!(unlisted(&root(), &list("docs/UNPINNED.md")), NONE);
}

#[test]
fn every_function_listed_in_unpinned_is_public() {
    assert_eq!(not_public(&root(), &list("docs/UNPINNED.md")), NONE);
}

#[test]
fn no_program_has_a_public_function() {
    assert_eq!(public_in_programs(&root()), set(&[]));
}

#[test]
fn every_edit_is_cited_in_promises() {
    assert_eq!(uncited(&root(), &list("docs/PROMISES.md")), NONE);
}

#[test]
fn every_row_of_promises_says_what_holds_it() {
    let text = list("docs/PROMISES.md");
    let rows = clause_rows(&text);
    assert!(rows.len() > 80);
    for cells in rows {
        assert!(cells.len() == 3 && cells.iter().all(|c| !c.is_empty()), "{cells:?}");
    }
}

#[test]
fn every_name_in_rules_is_in_the_tree() {
    assert_eq!(missing(&root(), cited_anywhere(&list("docs/RULES.md"))), NONE);
}

#[test]
fn every_clause_of_the_rules_has_a_row_in_promises() {
    let rules = clauses(&list("docs/RULES.md"));
    assert!(rules.len() > 80);
    assert_eq!(without(&rules, &clauses_listed(&list("docs/PROMISES.md"))), NONE);
}

#[test]
fn every_row_of_promises_has_its_clause_in_the_rules() {
    let rows = clauses_listed(&list("docs/PROMISES.md"));
    assert_eq!(without(&rows, &clauses(&list("docs/RULES.md"))), NONE);
}

#[test]
fn no_clause_stands_twice() {
    assert_eq!(twice(&clauses(&list("docs/RULES.md"))), NONE);
    assert_eq!(twice(&clauses_listed(&list("docs/PROMISES.md"))), NONE);
}

#[test]
fn every_clause_cited_in_a_crate_is_in_the_rules() {
    let named: Vec<String> = clauses_in_crates(&root()).into_iter().collect();
    assert!(named.len() > 60);
    assert_eq!(without(&named, &clauses(&list("docs/RULES.md"))), NONE);
}

#[test]
fn a_clause_without_a_row_and_a_row_without_a_clause_are_found_out() {
    let rules = clauses("None: **Z1** and\n- **bold\n\n- **A1** One.\n- **A2** Two, on\n  two lines.\n- **CL** Three.\n- **A2** More.\n");
    assert_eq!(rules, ["A1", "A2", "CL", "A2"]);
    let rows = clauses_listed("CL\n\n| clause | in short | held by |\n|---|---|---|\n| A1 | one | A2 |\n| A3 | | |\n| A1 | again | x |\n");
    assert_eq!(rows, ["A1", "A3", "A1"]);
    assert_eq!(without(&rules, &rows), ["A2", "CL", "A2"]);
    assert_eq!(without(&rows, &rules), ["A3"]);
    assert_eq!(twice(&rules), ["A2"]);
    assert_eq!(twice(&rows), ["A1"]);
}

#[test]
fn a_clause_is_cited_in_a_comment_and_between_brackets_only() {
    let text = "-- [A6] so; [R11, R12]\nxs = [] ++ [A7]\nys = [A8]  -- [A1 to A3], A4\n-- [ours], [A5, ours], [CL], [Cl], [A]\n-- [A9\n";
    assert_eq!(clauses_cited(text, "--"), ["A6", "R11", "R12", "A1", "A3", "CL"]);
    let tree = made_up(
        "clauses",
        &[
            ("crates/a/specs/One.antt", "-- [A1] one\n// [A2]\n"),
            ("crates/a/src/lib.rt", "// [A3]\n-- [A4]\n"),
            ("crates/b/proofs/Two.antt", "-- [A5]\n"),
        ],
    );
    assert_eq!(clauses_in_crates(&tree), set(&["A1", "A3"]));
}

#[test]
fn a_name_that_is_not_there_is_found_out() {
    assert_eq!(holds(&root(), "frame/Frames.reading"), Some(true));
    assert_eq!(holds(&root(), "frame/Frames.readin"), Some(false));
    assert_eq!(holds(&root(), "frame::read"), Some(true));
    assert_eq!(holds(&root(), "frame::rea"), Some(false));
    assert_eq!(holds(&root(), "drill::refill"), Some(true));
    assert_eq!(holds(&root(), "frame/must-fail/no_such_edit"), Some(false));
    assert_eq!(holds(&root(), "no_such_crate/Frames.reading"), Some(false));
    assert_eq!(holds(&root(), "no_such_crate::read"), Some(false));
    assert_eq!(holds(&root(), "GROUP"), None);
}

#[test]
fn the_path_of_a_file_is_no_name() {
    for path in ["docs/RULES.md", "crates/frame/specs/Frames.antt", "crates/*/must-fail/", "tests/orders", "README.md"] {
        assert_eq!(holds(&root(), path), None, "{path}");
    }
}

#[test]
fn a_name_in_prose_that_is_not_there_is_found_out() {
    let text = "# Why

As `frame::read` and
`frame::no_such` do (`docs/RULES.md`), `r ≡ ..`.

A stray ` mark.

By `frame/Frames.no-such`.
| a | `frame/must-fail/no_such_edit` |

```
let x = `frame::in_code`;
```

Last, `frame/RoundTrip.totals` and `frame::last`.
";
    assert_eq!(
        missing(&root(), cited_anywhere(text)),
        ["frame::no_such", "frame/Frames.no-such", "frame/must-fail/no_such_edit", "frame::last"]
    );
}

#[test]
fn only_the_newest_part_of_history_is_held_to_the_tree() {
    let text = "# Changes\n\n## Before\n\nNew: `frame::gone`.\n\n## Now\n\n### More\n\nNew: `frame::no_such` and `frame::read`.\n";
    assert_eq!(missing(&root(), cited_anywhere(newest(text))), ["frame::no_such"]);
    assert_eq!(missing(&root(), cited_anywhere(newest("New: `frame::no_such`.\n"))), ["frame::no_such"]);
}

#[test]
fn a_public_function_that_is_not_listed_is_found_out() {
    let tree = made_up(
        "functions",
        &[
            ("crates/a/src/lib.rt", "pub fn one() {}\nfn two() {}\npub(crate) fn three() {}\n// pub fn four\npub struct Five(pub u8);\n"),
            ("crates/a/src/deep/more.rt", "impl Six {\n    pub fn seven(self) -> u8\n}\n"),
            ("crates/b/src/lib.rt", ""),
            ("crates/c/src/main.rt", "fn main() {}\npub(crate) fn eight() {}\n"),
            ("crates/c/src/calls.rt", "pub fn nine(\n    n: u8,\n) {}\n"),
        ],
    );
    assert_eq!(public_functions(&tree), set(&["a::one", "a::seven"]));
    assert_eq!(public_in_programs(&tree), set(&["c::nine"]));
    let text = "| public function | promise |\n|---|---|\n| `a::one`, `a::two` | `a::seven` |\n";
    assert_eq!(unlisted(&tree, text), ["a::seven"]);
    assert_eq!(not_public(&tree, text), ["a::two"]);
}

#[test]
fn a_function_counts_as_listed_in_the_first_cell_only() {
    let text = "Beside `a::prose`.\n\n| public function | promise |\n|---|---|\n| `a::one`, `a::two` | `a::three` |\n";
    assert_eq!(listed(text), set(&["a::one", "a::two"]));
}

#[test]
fn an_edit_that_no_row_cites_is_found_out() {
    let tree = made_up(
        "edits",
        &[
            ("crates/a/must-fail/one.edit", ""),
            ("crates/a/must-fail/two.edit", ""),
            ("crates/b/must-fail/one.edit", ""),
            ("crates/b/src/lib.rt", ""),
        ],
    );
    assert_eq!(edits(&tree), set(&["a/must-fail/one", "a/must-fail/two", "b/must-fail/one"]));
    assert_eq!(uncited(&tree, "`a/must-fail/two`\n\n| A1 | one | `a/must-fail/one` |\n"), ["a/must-fail/two", "b/must-fail/one"]);
}
