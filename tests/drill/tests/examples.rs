use drill::{bytes, drill, examples, printed, start};
use std::fs::File;
use std::io::{BufRead, BufReader, Read, Write};

#[test]
fn each_example_prints_what_it_is_to_print() {
    let all = examples();
    assert!(all.len() >= 15);
    for (name, records, expected) in all {
        assert_eq!(printed(vec![records]), expected, "{name}");
    }
}

#[test]
fn records_may_be_split_anywhere() {
    for (name, records, expected) in examples() {
        let single = records.iter().map(|byte| vec![*byte]).collect();
        assert_eq!(printed(single), expected, "{name}, byte by byte");
        for at in 0..=records.len() {
            let pieces = vec![records[..at].to_vec(), records[at..].to_vec()];
            assert_eq!(printed(pieces), expected, "{name}, split at {at}");
        }
    }
}

fn the(name: &str) -> (Vec<u8>, String) {
    let found = examples().into_iter().find(|e| e.0 == name).unwrap();
    (found.1, found.2)
}

#[test]
fn a_long_input_is_read_to_its_end() {
    let (records, lines) = the("case_l");
    let day = lines.strip_suffix("END 8\n").unwrap();
    let times = 20_000;
    let expected = day.repeat(times) + "END 160000\n";
    assert!(printed(vec![records.repeat(times)]) == expected);
    let stopped = [records.repeat(times), vec![19]].concat();
    assert!(printed(vec![stopped]) == day.repeat(times) + "STOP 1400000\n");
}

#[test]
fn a_line_comes_as_soon_as_no_more_input_is_at_hand() {
    let mut child = start();
    let mut input = child.stdin.take().unwrap();
    let mut lines = BufReader::new(child.stdout.take().unwrap()).lines();
    input.write_all(&bytes("10 01")).unwrap();
    assert_eq!(lines.next().unwrap().unwrap(), "GROUP 1");
    input.write_all(&bytes("11 01 00000007 01")).unwrap();
    assert_eq!(lines.next().unwrap().unwrap(), "L1 A0 P7");
    drop(input);
    assert_eq!(lines.next().unwrap().unwrap(), "END 1");
    assert!(child.wait().unwrap().success());
}

#[test]
fn a_closed_output_ends_the_run_quietly() {
    let (records, _) = the("case_l");
    let mut child = start();
    drop(child.stdout.take());
    let mut input = child.stdin.take().unwrap();
    // The drill is gone before it has read all of this.
    while input.write_all(&records.repeat(1000)).is_ok() {}
    let mut said = String::new();
    child.stderr.take().unwrap().read_to_string(&mut said).unwrap();
    child.wait().unwrap();
    assert_eq!(said, "");
}

#[test]
fn an_input_that_cannot_be_read_has_no_last_line() {
    // A directory can be opened, and no byte of it can be read.
    let directory = File::open(env!("CARGO_MANIFEST_DIR")).unwrap();
    let output = drill().stdin(directory).output().unwrap();
    assert_eq!(String::from_utf8(output.stdout).unwrap(), "");
    assert_eq!(String::from_utf8(output.stderr).unwrap(), "drill: the input cannot be read\n");
}
