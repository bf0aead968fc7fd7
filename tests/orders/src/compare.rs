//! Comparing an output with the one wanted, and saying where they part.

use std::fs;
use std::path::{Path, PathBuf};

use crate::drill;
use crate::program::root;
use crate::record;

/// Anything that turns an input into an output: the drill, or a wrong ledger.
pub type Runner<'a> = dyn Fn(&[u8]) -> Result<Vec<u8>, String> + 'a;

/// How many records of a failing beginning are shown; the file holds all.
const MOST_SHOWN: usize = 120;

/// The output, if it is byte for byte the one wanted; else a report, with the
/// failing input kept in a file under `name`.
pub fn compare(run: &Runner, name: &str, input: &[u8]) -> Result<String, String> {
    let output = run(input);
    if output.as_ref() == Ok(&drill::output(input)) {
        return Ok(String::from_utf8_lossy(&output.unwrap_or_default()).into_owned());
    }
    let shortest = shortest_failing(run, input);
    let whole_file = keep(&format!("{name}.input"), input);
    let shortest_file = keep(&format!("{name}.shortest"), &shortest);
    Err(format!(
        "{name}: the drill differs.\nwhole input: {whole_file}\nshortest failing beginning: \
         {shortest_file}\n{}",
        describe(run, &shortest)
    ))
}

fn fails(run: &Runner, input: &[u8]) -> bool {
    run(input) != Ok(drill::output(input))
}

/// The shortest failing beginning, by whole records, of an input that fails.
/// Many runs are joined in one input; if the last of them fails alone, the
/// runs before it are left out.
pub fn shortest_failing(run: &Runner, input: &[u8]) -> Vec<u8> {
    let mut ends = vec![0];
    for piece in record::pieces(input) {
        ends.push(ends[ends.len() - 1] + piece.len());
    }
    if fails(run, &[]) {
        return Vec::new();
    }
    let (mut passing, mut failing) = (0, ends.len() - 1);
    while failing - passing > 1 {
        let middle = (passing + failing) / 2;
        match fails(run, &input[..ends[middle]]) {
            true => failing = middle,
            false => passing = middle,
        }
    }
    let last_set_up = ends[..failing].iter().rfind(|start| input[**start] == record::GROUP);
    let alone = &input[last_set_up.copied().unwrap_or(0)..ends[failing]];
    match fails(run, alone) {
        true => alone.to_vec(),
        false => input[..ends[failing]].to_vec(),
    }
}

/// A failing input in hex, and the first line in which the outputs differ.
pub fn describe(run: &Runner, input: &[u8]) -> String {
    shown(input) + &difference(run, input)
}

/// The records in hex, one a line.
fn shown(input: &[u8]) -> String {
    let pieces = record::pieces(input);
    let left_out = pieces.len().saturating_sub(MOST_SHOWN);
    let mut text = String::new();
    if pieces.is_empty() {
        text += "  (the empty input)\n";
    }
    if left_out > 0 {
        text += &format!("  (the first {left_out} records are only in the file)\n");
    }
    for piece in &pieces[left_out..] {
        let hex: Vec<String> = piece.iter().map(|byte| format!("{byte:02x}")).collect();
        text += &format!("  {}\n", hex.join(" "));
    }
    text
}

/// The first line in which the two outputs differ.
fn difference(run: &Runner, input: &[u8]) -> String {
    let wanted = drill::output(input);
    let got = match run(input) {
        Ok(got) => got,
        Err(problem) => return format!("{problem}\n"),
    };
    let (wanted_lines, got_lines) = (lines(&wanted), lines(&got));
    let line = (0..)
        .find(|line| {
            let (wanted, got) = (wanted_lines.get(*line), got_lines.get(*line));
            wanted != got || wanted.is_none()
        })
        .unwrap_or(0);
    let text = |lines: &[&[u8]]| match lines.get(line) {
        Some(line) => format!("{:?}", String::from_utf8_lossy(line)),
        None => "nothing more".to_string(),
    };
    format!("line {}: wanted {}, got {}\n", line + 1, text(&wanted_lines), text(&got_lines))
}

/// The lines, each with its line end, so that a missing one shows.
fn lines(output: &[u8]) -> Vec<&[u8]> {
    output.split_inclusive(|byte| *byte == b'\n').collect()
}

/// Keeps bytes in `target/orders` of the repository, or in the system's place
/// for passing files, and says where.
pub fn keep(name: &str, bytes: &[u8]) -> String {
    let write_in = |folder: &Path| -> Option<PathBuf> {
        let file = folder.join(name);
        fs::create_dir_all(folder).ok()?;
        fs::write(&file, bytes).ok()?;
        Some(file)
    };
    let file = write_in(&root().join("target/orders"))
        .or_else(|| write_in(&std::env::temp_dir().join("orders")));
    match file {
        Some(file) => file.display().to_string(),
        None => "(could not be kept in a file)".to_string(),
    }
}
