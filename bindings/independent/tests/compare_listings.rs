//! The comparison itself: it passes a right listing program and finds what is wrong with wrong ones.

use std::fs;
use std::os::unix::fs::PermissionsExt;
use std::path::{Path, PathBuf};
use std::process::{Command, Output};

const COMPARE: &str = env!("CARGO_BIN_EXE_compare_listings");
const LIST: &str = env!("CARGO_BIN_EXE_list_independent");
const MAKE: &str = env!("CARGO_BIN_EXE_make_capture");

fn compare(program: &Path, keep: &Path, patience: &str) -> Output {
    let _ = fs::remove_dir_all(keep);
    Command::new(COMPARE)
        .arg(program)
        .args(["--count", "300", "--seed", "51"])
        .args(["--patience", patience, "--keep"])
        .arg(keep)
        .output()
        .unwrap()
}

fn last_line(output: &Output) -> String {
    let printed = String::from_utf8_lossy(&output.stdout);
    printed.lines().last().unwrap_or_default().to_string()
}

fn script(folder: &Path, text: &str) -> PathBuf {
    let path = folder.join("listing.sh");
    fs::write(&path, format!("#!/bin/sh\n{text}\n")).unwrap();
    fs::set_permissions(&path, fs::Permissions::from_mode(0o755)).unwrap();
    path
}

// One test, since a script cannot be started while another thread's child still has it open for writing.
#[test]
fn right_and_wrong_programs() {
    let folder = Path::new(env!("CARGO_TARGET_TMPDIR")).join("compare_listings");
    let keep = folder.join("kept");
    fs::create_dir_all(&folder).unwrap();

    let output = compare(Path::new(LIST), &keep, "60");
    assert_eq!(output.status.code(), Some(0));
    assert_eq!(last_line(&output), "compared 418 captures, 0 differences");
    assert!(!keep.exists());

    let wrong = [
        ("exit 0", "the program printed no such line"),
        ("printf 'limit 1200\\nend clean\\n'", "line 2: "),
        ("LIST; exit 3", "exit status: 3"),
        ("LIST; kill -SEGV $$", "signal: 11"),
        ("yes", "the program was stopped"),
        ("exec sleep 20", "the program was stopped"),
        (
            "LIST; echo",
            r"expected no such line, the program printed `\n`",
        ),
        (
            "printf '%s' \"$(LIST)\"",
            r"expected `end clean\n`, the program printed `end clean`",
        ),
        (
            "LIST | sed 's/truncated/clean/'",
            "the program printed `end clean",
        ),
        (
            "LIST | sed 's/^drop 1201$/datagram 1201/'",
            r"expected `drop 1201\n`",
        ),
        (
            "LIST | sed 's/^datagram 1200$/drop 1200/'",
            r"expected `datagram 1200\n`",
        ),
        (
            "LIST | sed 's/^skip 16725925 /datagram /'",
            "expected `skip 16725925 ",
        ),
        ("head -c 65536 | LIST", "line "),
        ("LIST | head -n 5000", "line 5001: "),
    ];
    for (text, message) in wrong {
        let program = script(&folder, &text.replace("LIST", &format!("'{LIST}'")));
        let patience = if text.contains("sleep") { "1" } else { "60" };
        let output = compare(&program, &keep, patience);
        let printed = String::from_utf8_lossy(&output.stdout);
        assert_eq!(output.status.code(), Some(1), "{text}: {printed}");
        assert!(
            last_line(&output).ends_with(" captures, 1 difference"),
            "{text}: {printed}"
        );
        assert!(printed.contains(message), "{text}: {printed}");
        assert_eq!(kept(&keep), 1, "{text}: {printed}");
    }

    let output = compare(&folder.join("no such program"), &keep, "60");
    assert_eq!(output.status.code(), Some(2));
}

/// How many captures were kept. Those made from a seed are made again and compared.
fn kept(folder: &Path) -> usize {
    let mut count = 0;
    for entry in fs::read_dir(folder).unwrap() {
        let path = entry.unwrap().path();
        let name = path.file_stem().unwrap().to_str().unwrap();
        let mut parts = name.split('-').skip(1);
        let (seed, number) = (parts.next().unwrap(), parts.next().unwrap());
        if seed != "written" {
            let made = Command::new(MAKE).args([seed, number]).output().unwrap();
            assert!(made.stdout == fs::read(&path).unwrap());
        }
        count += 1;
    }
    count
}
