//! The command, called as people and scripts call it.

use std::fs;
use std::io::Write;
use std::path::{Path, PathBuf};
use std::process::{Command, Stdio};

/// A field of 20 by 20 degrees with a blind spot of 4 by 4.
pub const SQUARE: &str = "# A field\n-10,-10\n10,-10\n10,10\n-10,10\n\n# its blind spot\n2,-2\n2,2\n6,2\n6,-2\n";

/// What a call said, and its status.
pub struct Said {
    pub status: i32,
    pub out: String,
    pub err: String,
}

/// Calls the command in the repository's root.
pub fn call(words: &[&str], input: &[u8]) -> Said {
    let mut child = Command::new(env!("CARGO_BIN_EXE_sitjorbe"))
        .args(words)
        .current_dir(root())
        .stdin(Stdio::piped())
        .stdout(Stdio::piped())
        .stderr(Stdio::piped())
        .spawn()
        .expect("the command is built");
    let (mut stdin, input) = (child.stdin.take().expect("it is piped"), input.to_vec());
    // A command that refuses its words reads nothing, and the pipe breaks.
    let writer = std::thread::spawn(move || drop(stdin.write_all(&input)));
    let output = child.wait_with_output().expect("it ends");
    writer.join().expect("it wrote");
    let text = |bytes| String::from_utf8(bytes).expect("it says text");
    Said {
        status: output.status.code().expect("no signal ended it"),
        out: text(output.stdout),
        err: text(output.stderr),
    }
}

pub fn root() -> PathBuf {
    Path::new(env!("CARGO_MANIFEST_DIR")).join("..")
}

/// A folder of a test's own.
pub fn folder(name: &str) -> PathBuf {
    let folder = Path::new(env!("CARGO_TARGET_TMPDIR")).join("command").join(name);
    let _ = fs::remove_dir_all(&folder);
    fs::create_dir_all(&folder).expect("a folder");
    folder
}

pub fn written(folder: &Path, name: &str, text: &[u8]) -> String {
    let path = folder.join(name);
    fs::write(&path, text).expect("a file");
    path.to_str().expect("a plain name").to_string()
}

pub fn inside(folder: &Path, name: &str) -> String {
    folder.join(name).to_str().expect("a plain name").to_string()
}

pub fn read(path: &str) -> String {
    fs::read_to_string(path).unwrap_or_else(|error| panic!("{path}: {error}"))
}

/// Whether a document's tags are balanced, its attributes quoted and its text escaped.
pub fn check_xml(text: &str) {
    let mut open: Vec<&str> = vec![];
    let mut rest = text;
    while let Some(from) = rest.find('<') {
        let known = ["&amp;", "&lt;", "&gt;", "&quot;", "&nbsp;"];
        let told = known.iter().fold(rest[..from].to_string(), |text, entity| text.replace(entity, ""));
        assert!(!told.contains('&') && (!told.contains('>') || open.last() == Some(&"style")), "{told}");
        let to = from + rest[from..].find('>').expect("a tag ends");
        let tag = &rest[from + 1..to];
        let name = tag.trim_start_matches('/').split([' ', '/']).next().expect("a name");
        match () {
            () if tag.starts_with('/') => assert_eq!(open.pop(), Some(name)),
            () if tag.ends_with('/') || tag.starts_with('!') || ["meta", "br"].contains(&name) => {}
            () => open.push(name),
        }
        assert_eq!(tag.matches('"').count() % 2, 0, "{tag}");
        rest = &rest[to + 1..];
    }
    assert!(open.is_empty() && !text.chars().any(|c| c.is_control() && c != '\n'));
}
