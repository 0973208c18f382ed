//! What stands in the repository as a program's expected output: it is what the reference prints, so that
//! none was taken from the program itself. (The cases beside `damage` are looked at in `direct`.)

use crate::{pair_of, Pair};
use reference::dayfile::{keep, lines_text, THERE_ALREADY};
use reference::print::check_counts;
use std::fs;
use std::path::{Path, PathBuf};

/// The folders in a folder of the repository, by name.
fn folders(inside: &str) -> Vec<PathBuf> {
    let folder = Path::new(env!("CARGO_MANIFEST_DIR"))
        .join("../..")
        .join(inside);
    let entries = fs::read_dir(folder).unwrap();
    let mut folders: Vec<PathBuf> = entries.map(|entry| entry.unwrap().path()).collect();
    folders.sort();
    folders
}

/// The lines of a file; none where there is no such file.
fn lines(file: &Path) -> Vec<String> {
    let text = fs::read_to_string(file).unwrap_or_default();
    text.lines().map(str::to_string).collect()
}

/// What stands for a program with these words in the reference, if anything does.
fn stands_for(name: &str, words: &[String]) -> Option<Pair<'static>> {
    let words: Vec<&str> = words.iter().map(String::as_str).collect();
    pair_of(Path::new(""), name, &words)
}

/// The feeds beside the programs, the known readings among them.
#[test]
fn beside_the_programs() {
    let mut compared = Vec::new();
    for folder in folders("crates") {
        let name = folder.file_name().unwrap().to_str().unwrap().to_string();
        let Ok(feed) = fs::read(folder.join("stdin")) else {
            continue;
        };
        if let Some(pair) = stands_for(&name, &lines(&folder.join("args"))) {
            let stdout = fs::read(folder.join("stdout")).unwrap();
            assert!(stdout == pair.expected(&feed), "{name}");
            compared.push(name);
        }
    }
    for name in ["flights", "readings"] {
        assert!(compared.iter().any(|other| other == name), "{name}");
    }
}

/// What stands in a case's folder; nothing where there is no such file.
fn written(folder: &Path, file: &str) -> Vec<u8> {
    fs::read(folder.join(file)).unwrap_or_default()
}

/// The programs as people run them: the words, the last of which may name the feed's file or, by a hyphen,
/// standard input. Of `desk check` the sums on standard error too.
#[test]
fn as_people_run_them() {
    let mut compared = 0;
    for folder in folders("tests/desk/cases") {
        let mut words = lines(&folder.join("words"));
        let name = words.remove(0);
        let feed = match words.last() {
            Some(word) if word == "-" || folder.join(word).is_file() => {
                let word = words.pop().unwrap();
                folder.join(if word == "-" { "stdin" } else { &word })
            }
            _ => folder.join("stdin"),
        };
        let feed = fs::read(feed).unwrap_or_default();
        if let Some(pair) = stands_for(&name, &words) {
            let shown = folder.display();
            let stdout = written(&folder, "stdout");
            assert!(stdout == pair.expected(&feed), "{shown}");
            if name == "desk" {
                let stderr = written(&folder, "stderr");
                assert!(stderr == check_counts(pair.rule, &feed), "{shown}");
            }
            compared += 1;
        }
    }
    assert!(compared >= 14, "{compared}");
}

/// The sample of the old feed is the one that is checked there.
#[test]
fn the_sample_of_the_old_feed() {
    let root = Path::new(env!("CARGO_MANIFEST_DIR")).join("../..");
    let sample = fs::read(root.join("samples/old.feed")).unwrap();
    for case in ["check-old", "check-old-refused"] {
        let folder = root.join("tests/desk/cases").join(case);
        assert!(written(&folder, "feed") == sample, "{case}");
    }
}

/// What `desk keep` and `desk lines` do with a file of this name: what they write, what they say, and the
/// file that they make.
fn of_day_file(
    word: &str,
    name: &str,
    folder: &Path,
) -> Option<(Vec<u8>, String, Option<Vec<u8>>)> {
    let file = fs::read(folder.join(name));
    match (word, file) {
        ("keep", Ok(_)) => Some((Vec::new(), format!("{name}: {THERE_ALREADY}\n"), None)),
        // there is no folder for it, or its part stands there: that is the system's word
        ("keep", Err(_)) if !can_make(&folder.join(name)) => None,
        ("keep", Err(_)) => {
            let kept = keep(&written(folder, "stdin"));
            Some((Vec::new(), kept.said, Some(kept.file)))
        }
        ("lines", Ok(file)) => Some(match lines_text(&file) {
            Ok(text) => (text, String::new(), None),
            Err(why) => (Vec::new(), format!("{name}: {why}\n"), None),
        }),
        _ => None,
    }
}

/// Whether a file can be made there, by way of its part.
fn can_make(path: &Path) -> bool {
    let mut part = path.as_os_str().to_owned();
    part.push(".part");
    path.parent().is_some_and(Path::is_dir) && !Path::new(&part).exists()
}

/// The desk's day files: those that it makes, and what it says of them.
#[test]
fn day_files() {
    let mut compared = 0;
    for folder in folders("tests/desk/cases") {
        let words = lines(&folder.join("words"));
        let [program, word, name] = &words[..] else {
            continue;
        };
        if program != "desk" || name.starts_with('-') {
            continue;
        }
        let Some((text, said, made)) = of_day_file(word, name, &folder) else {
            continue;
        };
        let shown = folder.display();
        assert!(written(&folder, "stdout") == text, "{shown}");
        assert!(written(&folder, "stderr") == said.as_bytes(), "{shown}");
        let makes = fs::read_dir(folder.join("makes")).map_or(0, Iterator::count);
        assert_eq!(makes, usize::from(made.is_some()), "{shown}");
        if let Some(made) = made {
            assert!(written(&folder.join("makes"), name) == made, "{shown}");
        }
        compared += 1;
    }
    assert!(compared >= 10, "{compared}");
}
