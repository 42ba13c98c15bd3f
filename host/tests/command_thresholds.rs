//! Files of thresholds: written to be filled in, read back, and taken for no mesh but their own.

#[path = "common/called.rs"]
#[allow(dead_code)]
mod called;

use called::{call, check_xml, folder, inside, read, written, SQUARE};

const HILL: &str = "examples/hill-of-vision/24-2.csv";

/// A file of thresholds of the square at size 2, and what a rewriting of its rows makes of it.
fn rewritten(name: &str, row: impl Fn(&str) -> String) -> (String, String) {
    let folder = folder(name);
    let file = inside(&folder, "empty.csv");
    assert_eq!(call(&["pave", "-", "--size", "2", "-o", &file], SQUARE.as_bytes()).status, 0);
    let text: String = read(&file).lines().map(|line| row(line) + "\n").collect();
    (written(&folder, "t.csv", text.as_bytes()), inside(&folder, "out.svg"))
}

/// A row with a threshold in its fourth column.
fn filled(line: &str) -> String {
    let words: Vec<&str> = line.split(',').collect();
    match words[..] {
        [id, x, y, "", ..] => format!("{id},{x},{y},{}", 20.0 + id.parse::<f64>().expect("an id") / 10.0),
        _ => line.to_string(),
    }
}

#[test]
fn a_file_is_written_filled_in_and_read_back() {
    let (file, out) = rewritten("filled", filled);
    let again = out.replace("out.svg", "again.csv");
    let words = ["pave", "-", "--size", "2", "--thresholds", &file, "-o", &out, "-o", &again];
    let said = call(&words, SQUARE.as_bytes());
    assert_eq!(said.status, 0, "{}", said.err);
    let svg = read(&out);
    check_xml(&svg);
    let mesh = read(&again);
    let nodes = mesh.lines().count() - 2;
    assert!(svg.contains(" quads have all four.") && svg.contains(">20.3</text>") && svg.contains(">21</text>"));
    assert_eq!(svg.matches("class=\"decibels\"").count(), nodes, "decibels stand at the nodes");
    assert!(!svg.contains("class=\"number\""), "and no numbers of nodes");
    let threshold = |line: &str| line.split(',').nth(3).map(str::to_string);
    assert_eq!(threshold(mesh.lines().nth(2 + 7).expect("node 7")), Some("20.7".to_string()));
    let numbers = call(&["pave", "-", "--size", "2", "--thresholds", &file, "--numbers", "-o", "-"], SQUARE.as_bytes());
    assert!(numbers.out.contains("class=\"number\"") && !numbers.out.contains("class=\"decibels\""));
}

/// The same mesh's file, as sheets in other countries and with other columns write it.
#[test]
fn a_file_as_sheets_write_it() {
    let semicolons = |line: &str| filled(line).replace(',', ";").replace('.', ",");
    let tabs = |line: &str| filled(line).replace(',', "\t");
    let quoted = |line: &str| match line.strip_prefix('#') {
        Some(_) => line.to_string(),
        None => filled(line).split(',').map(|word| format!("\"{word}\"")).collect::<Vec<_>>().join(","),
    };
    let turned = |line: &str| {
        let words: Vec<String> = filled(line).split(',').map(str::to_string).collect();
        if words.len() < 4 {
            line.to_string()
        } else {
            [&words[3], &words[2], &words[0], &words[1]].map(String::as_str).join(",")
        }
    };
    let rounded = |line: &str| {
        let told = filled(line);
        let words: Vec<&str> = told.split(',').collect();
        let short = |word: &str| word.parse::<f64>().map_or(word.to_string(), |x| format!("{x:.4}"));
        if words.len() < 4 {
            line.to_string()
        } else {
            [words[0].to_string(), short(words[1]), short(words[2]), words[3].to_string()].join(",")
        }
    };
    let rewritings: [(&str, &dyn Fn(&str) -> String); 5] =
        [("semicolons", &semicolons), ("tabs", &tabs), ("quoted", &quoted), ("turned", &turned), ("rounded", &rounded)];
    let (plain, out) = rewritten("plain", filled);
    let picture = |file: &str| {
        let said = call(&["pave", "-", "--size", "2", "--thresholds", file, "-o", &out], SQUARE.as_bytes());
        assert_eq!(said.status, 0, "{}", said.err);
        read(&out)
    };
    let wanted = picture(&plain);
    for (name, row) in rewritings {
        assert_eq!(picture(&rewritten(name, row).0), wanted, "{name}");
    }
}

#[test]
fn thresholds_of_another_mesh_are_refused() {
    let (file, _) = rewritten("other", filled);
    let at = |size: &str| call(&["pave", "-", "--size", size, "--thresholds", &file], SQUARE.as_bytes());
    assert_eq!(at("2").status, 0);
    let other = at("2.5");
    assert_eq!((other.status, other.out.as_str()), (1, ""), "no scotoma is drawn that the patient hasn't got");
    assert!(other.err.contains("t.csv: line 4: refused: node 1 lies at -8, -10 there and at -7.5, -10 in this mesh: the thresholds are of another mesh, "), "{}", other.err);
    // Without the mesh's digest the places alone decide.
    let (bare, _) = rewritten("bare", |line| if line.starts_with('#') { String::new() } else { filled(line) });
    let said = call(&["pave", "-", "--size", "2.5", "--thresholds", &bare], SQUARE.as_bytes());
    assert!(said.status == 1 && said.err.contains("line 4: refused: node 1 lies at"), "{}", said.err);
    assert_eq!(call(&["pave", "-", "--size", "2", "--thresholds", &bare], SQUARE.as_bytes()).status, 0);
    // Places that fit don't make another mesh this one.
    let (named, _) =
        rewritten(
            "named",
            |line| if line.starts_with('#') { "# mesh 0123456789abcdef".to_string() } else { filled(line) },
        );
    let said = call(&["pave", "-", "--size", "2", "--thresholds", &named], SQUARE.as_bytes());
    assert!(
        said.status == 1
            && said
                .err
                .contains("line 1: refused: the thresholds are of another mesh, 0123456789abcdef, where this is "),
        "{}",
        said.err
    );
}

#[test]
fn what_no_file_of_thresholds_is() {
    let folder = folder("none-of-thresholds");
    let head = "node,x,y,threshold_dB\n";
    let cases = [
        (String::new(), 2, "it has no rows: sitjorbe pave -o FILE.csv writes one"),
        ("0,225\n1,227\n".to_string(), 2, "line 1: no column is named node"),
        ("node,threshold_dB\n0,20\n".to_string(), 2, "line 1: no column is named x"),
        ("node,x,y\n0,-10,-10\n".to_string(), 2, "line 1: no column is named threshold_dB"),
        (format!("{head}0,-10,-10,50.1\n"), 1, "line 2: refused (16)"),
        (format!("{head}0,-10,-10,20\n9999,0,0,1\n"), 1, "line 3: refused (15): the mesh has no node 9999: it has "),
        (format!("{head}0,-10,-10,20\n0,-10,-10,21\n"), 2, "line 3: node 0 stands at line 2 already"),
        (
            format!("{head}0,-10,-10,20.05\n"),
            2,
            "line 2: threshold_dB isn't decibels from 0 to 50 with one decimal at most: 20.05",
        ),
        (format!("{head}0,-10,-10,-1\n"), 2, "line 2: threshold_dB isn't decibels"),
        (format!("{head}0,-10,-10,nan\n"), 2, "line 2: threshold_dB isn't a number: nan"),
        (format!("{head}0,-10,x,20\n"), 2, "line 2: y isn't a number: x"),
        (format!("{head}-1,-10,-10,20\n"), 2, "line 2: node isn't a whole number: -1"),
        (format!("{head}0,-10,-10,\u{1b}[2J\n"), 2, "line 2: threshold_dB isn't a number: ?[2J"),
    ];
    for (text, status, part) in cases {
        let file = written(&folder, "t.csv", text.as_bytes());
        let said = call(&["pave", "-", "--size", "2", "--thresholds", &file], SQUARE.as_bytes());
        assert_eq!((said.status, said.out.as_str()), (status, ""), "{text:?}: {}", said.err);
        assert!(said.err.contains(&format!("t.csv: {part}")), "{text:?}: {}", said.err);
    }
    let nodes = call(&["pave", HILL, "--size", "3"], b"");
    assert!(nodes.status == 2 && nodes.err.contains("this is a table of a mesh's nodes"), "{}", nodes.err);
}

/// The picture and every export name the mesh and the version; a listing's lines give the same digest.
#[test]
fn every_file_names_its_mesh() {
    let folder = folder("named-mesh");
    let endings = ["svg", "vtk", "msh", "json", "csv", "quads.csv", "steps.csv", "html"];
    let outputs = endings.map(|ending| inside(&folder, &format!("a.{ending}")));
    let mut words = vec!["pave", "examples/24-2.csv", "--size", "3", "--thresholds", HILL, "--date", "2026-11-27"];
    outputs.iter().for_each(|output| words.extend(["-o", output]));
    let said = call(&words, b"");
    assert_eq!(said.status, 0, "{}", said.err);
    let listing = "grep '^[nq] ' examples/24-2.listing | sha256sum | cut -c1-16";
    let output = std::process::Command::new("bash").args(["-c", listing]).current_dir(called::root()).output();
    let digest = String::from_utf8(output.expect("bash").stdout).expect("text").trim().to_string();
    assert_eq!(digest.len(), 16);
    for output in &outputs {
        let text = read(output);
        assert!(text.contains(&digest) && text.contains(env!("CARGO_PKG_VERSION")), "{output}");
    }
    assert!(read(HILL_PATH).starts_with(&format!("# mesh {digest}")) && read(&outputs[0]).contains(", 2026-11-27."));
}

const HILL_PATH: &str = concat!(env!("CARGO_MANIFEST_DIR"), "/../examples/hill-of-vision/24-2.csv");

#[test]
fn the_example() {
    let said = call(&["pave", "examples/24-2.csv", "--size", "3", "--thresholds", HILL, "-o", "-"], b"");
    assert_eq!(said.status, 0, "{}", said.err);
    check_xml(&said.out);
    assert!(
        said.out.contains("196 of 216 quads have all four") && said.out.contains("no estimate: a threshold is missing")
    );
}
