//! The command `sitjorbe`, called as people and scripts call it: every call that the documents show, exit statuses, every format read back, hostile files.

#[path = "common/called.rs"]
mod called;

use std::collections::HashMap;
use std::fs;
use std::io::{BufRead, BufReader};
use std::path::Path;
use std::process::{Command, Stdio};

use called::{call, check_xml, folder, inside, read, root, written, SQUARE};

/// Nodes by their bits, and quads.
type Mesh = (Vec<[u64; 2]>, Vec<[usize; 4]>);

/// The mesh of a listing of the program.
fn listed(text: &str) -> Mesh {
    let (mut nodes, mut quads) = (vec![], vec![]);
    for line in text.lines() {
        let words: Vec<&str> = line.split(' ').collect();
        let bits = |word: &str| u64::from_str_radix(word, 16).expect("bits");
        match words[..] {
            ["n", x, y] => nodes.push([bits(x), bits(y)]),
            ["q", a, b, c, d] => quads.push([a, b, c, d].map(|id| id.parse().expect("an id"))),
            _ => {}
        }
    }
    (nodes, quads)
}

fn bits(word: &str) -> u64 {
    word.parse::<f64>().expect("a float").to_bits()
}

/// The mesh of a VTK file: a reader of what the format says, no more.
fn of_vtk(text: &str) -> Mesh {
    let mut lines = text.lines();
    assert_eq!(lines.next(), Some("# vtk DataFile Version 3.0"));
    lines.next();
    assert_eq!([lines.next(), lines.next()], [Some("ASCII"), Some("DATASET UNSTRUCTURED_GRID")]);
    let mut words = lines.flat_map(|line| line.split(' '));
    let mut next = || words.next().expect("a word");
    assert_eq!(next(), "POINTS");
    let count: usize = next().parse().expect("a count");
    assert_eq!(next(), "double");
    let mut nodes = vec![];
    for _ in 0..count {
        nodes.push([bits(next()), bits(next())]);
        assert_eq!(next(), "0.0");
    }
    assert_eq!(next(), "CELLS");
    let cells: usize = next().parse().expect("a count");
    assert_eq!(next(), (5 * cells).to_string());
    let mut quads = vec![];
    for _ in 0..cells {
        assert_eq!(next(), "4");
        quads.push([(); 4].map(|()| next().parse().expect("an id")));
    }
    assert_eq!([next(), next()], ["CELL_TYPES", &cells.to_string()]);
    (0..cells).for_each(|_| assert_eq!(next(), "9"));
    for (kind, count) in [("CELL_DATA", cells), ("POINT_DATA", count)] {
        assert_eq!(
            [next(), next(), next(), next(), next(), next()],
            [kind, &count.to_string(), "SCALARS", "loop", "int", "1\nLOOKUP_TABLE".split('\n').next().unwrap()]
        );
        assert_eq!([next(), next()], ["LOOKUP_TABLE", "default"]);
        (0..count).for_each(|_| assert!(next().parse::<u16>().is_ok()));
    }
    assert_eq!(words.next(), None);
    (nodes, quads)
}

/// The mesh of a Gmsh file, and its groups' names.
fn of_msh(text: &str) -> (Mesh, HashMap<usize, String>) {
    let part = |name: &str| {
        let from = text.find(&format!("${name}\n")).expect("the part begins") + name.len() + 2;
        let to = text.find(&format!("$End{name}\n")).expect("the part ends");
        let lines: Vec<&str> = text[from..to].lines().collect();
        let count: usize = lines[0].split(' ').next().expect("a count").parse().unwrap_or(0);
        (count, lines[1..].to_vec())
    };
    assert!(text.starts_with("$MeshFormat\n2.2 0 8\n$EndMeshFormat\n"));
    let (count, lines) = part("PhysicalNames");
    let named = |line: &&str| {
        let words: Vec<&str> = line.splitn(3, ' ').collect();
        assert_eq!(words[0], "2");
        (words[1].parse().expect("a number"), words[2].trim_matches('"').to_string())
    };
    let names: HashMap<usize, String> = lines.iter().map(named).collect();
    assert_eq!(names.len(), count);
    let (count, lines) = part("Nodes");
    let node = |(place, line): (usize, &&str)| {
        let words: Vec<&str> = line.split(' ').collect();
        assert_eq!([words[0], words[3]], [&(place + 1).to_string(), "0.0"]);
        [bits(words[1]), bits(words[2])]
    };
    let nodes: Vec<[u64; 2]> = lines.iter().enumerate().map(node).collect();
    assert_eq!(nodes.len(), count);
    let (count, lines) = part("Elements");
    let quad = |line: &&str| {
        let words: Vec<usize> = line.split(' ').map(|word| word.parse().expect("a number")).collect();
        assert_eq!((words.len(), words[1], words[2]), (9, 3, 2));
        assert!(names.contains_key(&words[3]));
        [words[5] - 1, words[6] - 1, words[7] - 1, words[8] - 1]
    };
    let quads: Vec<[usize; 4]> = lines.iter().map(quad).collect();
    assert_eq!(quads.len(), count);
    ((nodes, quads), names)
}

/// The numbers in a part of the JSON file, each part of which stands on a line.
fn of_json(text: &str) -> Mesh {
    let numbers = |name: &str| {
        let line = text.lines().find(|line| line.starts_with(&format!("\"{name}\":"))).expect("the part is there");
        let words = line[name.len() + 3..].split(['[', ']', ',', '}']).filter(|word| !word.is_empty());
        words.map(str::to_string).collect::<Vec<_>>()
    };
    let nodes = numbers("nodes").chunks(2).map(|pair| [bits(&pair[0]), bits(&pair[1])]).collect();
    let quads = numbers("quads").chunks(4).map(|ids| [0, 1, 2, 3].map(|k| ids[k].parse().expect("an id"))).collect();
    (nodes, quads)
}

// ---- help, versions, calls that aren't any

#[test]
fn help_and_version() {
    let commands = ["pave", "check", "quality", "picture", "exam", "order", "nearest", "contains", "small-quads"]
        .map(|c| [c, "--help"]);
    let calls = [&["--help"][..], &["-h"], &["help"], &["check", "-h"]];
    for words in calls.into_iter().chain(commands.iter().map(<[&str; 2]>::as_slice)) {
        let said = call(words, b"");
        assert_eq!((said.status, said.err.as_str()), (0, ""));
        assert!(said.out.starts_with("sitjorbe") && said.out.contains("exit status"), "{}", said.out);
        assert!(said.out.lines().all(|line| line.chars().count() <= 150));
    }
    let said = call(&["--version"], b"");
    assert_eq!((said.status, said.out), (0, format!("sitjorbe {}\n", env!("CARGO_PKG_VERSION"))));
}

#[test]
fn calls_that_are_none() {
    let square = written(&folder("none"), "square.csv", SQUARE.as_bytes());
    let calls: [(&[&str], &str); 22] = [
        (&[], "no command is given"),
        (&["pawe"], "there is no command pawe"),
        (&["pave"], "--size is wanted"),
        (&["pave", "--size", "1"], "no field is named"),
        (&["pave", &square, "--size"], "--size wants a value"),
        (&["pave", &square, "--size", "one"], "--size wants a number: one"),
        (&["pave", &square, "--size", "1", "--sweeps", "-1"], "--sweeps wants a whole number from 0 to 1,000: -1"),
        (&["pave", &square, "--size", "1", "--passes", "x"], "--passes wants a whole number from 0 to 600: x"),
        (&["pave", &square, "--size", "1", "--size", "2"], "--size is given twice"),
        (&["pave", &square, "--size", "1", "--thin", "-2"], "--thin wants degrees above 0"),
        (&["pave", &square, "--size", "1", "--thin=x"], "--thin wants a number: x"),
        (&["pave", &square, "--size", "1", "--edge", "2,0"], "there is no loop 2: the outline has 2 loops"),
        (&["pave", &square, "--size", "1", "--best", "--thresholds", &square], "--best tries other sizes"),
        (&["pave", &square, "--size", "1", "--numbers=yes"], "--numbers takes no value"),
        (&["pave", &square, "--size", "1", "--colour"], "there is no option --colour"),
        (&["pave", &square, "--size", "1", "--eye", "middle"], "--eye is right or left, not middle"),
        (&["pave", &square, "--size", "1", "-o", "mesh.stl"], "mesh.stl: it ends in none of .svg"),
        (&["pave", "-", "-", "--size", "1"], "standard input can't be read twice"),
        (&["pave", &square, "--size", "1", "-o", "-", "--as", "png"], ".png: it ends in none of"),
        (&["pave", &square, "--size", "1", "-o", &square], "would be written over"),
        (&["check"], "no field is named"),
        (&["quality"], "no mesh is named"),
    ];
    for (words, part) in calls {
        let said = call(words, b"");
        assert_eq!((said.status, said.out.as_str()), (2, ""), "{words:?}: {}", said.err);
        assert!(said.err.starts_with("sitjorbe: ") && said.err.contains(part), "{words:?}: {}", said.err);
    }
    assert_eq!(read(&square), SQUARE, "a field isn't written over");
}

// ---- pave

#[test]
fn meshes_are_the_proved_programs_in_every_format() {
    let folder = folder("formats");
    let sizes = [
        ("right-eye", "3.6"),
        ("left-eye", "8"),
        ("24-2", "3"),
        ("30-2", "6"),
        ("hemianopia", "2.65"),
        ("hand-drawn", "3.5"),
    ];
    for (name, size) in sizes {
        let outputs: Vec<String> = ["svg", "vtk", "msh", "json", "csv", "quads.csv"]
            .map(|ending| inside(&folder, &format!("{{}}.{ending}")))
            .to_vec();
        let field = format!("examples/{name}.csv");
        let mut words = vec!["pave", &field, "--size", size, "--eye", "right"];
        outputs.iter().for_each(|output| words.extend(["-o", output]));
        let said = call(&words, b"");
        assert_eq!(said.status, 0, "{}", said.err);
        let wanted = listed(&read(root().join(format!("examples/{name}.listing")).to_str().expect("a name")));
        let file = |ending: &str| read(&inside(&folder, &format!("{name}.{ending}")));
        assert!(wanted.0.len() > 90 && wanted.1.len() > 70);
        assert_eq!(of_json(&file("json")), wanted);
        assert_eq!(of_vtk(&file("vtk")), wanted);
        let (mesh, names) = of_msh(&file("msh"));
        assert_eq!(mesh, wanted);
        assert_eq!(
            names.values().any(|name| name == "blind spot" || name == "arcuate scotoma"),
            ["right-eye", "left-eye", "hand-drawn"].contains(&name)
        );
        assert_eq!(file("csv").lines().count(), 2 + wanted.0.len());
        let quads = file("quads.csv");
        let ids =
            |line: &str| line.split(',').skip(1).take(4).map(|id| id.parse().expect("an id")).collect::<Vec<usize>>();
        assert_eq!(
            quads.lines().skip(2).map(ids).collect::<Vec<_>>(),
            wanted.1.iter().map(|quad| quad.to_vec()).collect::<Vec<_>>()
        );
        check_xml(&file("svg"));
        let again = call(&["quality", &inside(&folder, &format!("{name}.json"))], b"");
        assert_eq!(again.status, 0, "{}", again.err);
        assert_eq!(
            again.out.split_once(": ").map(|(_, figures)| figures),
            said.out.split_once(": ").map(|(_, figures)| figures)
        );
    }
    check_with_gmsh(&inside(&folder, "right-eye.msh"), &inside(&folder, "again.vtk"));
}

/// Where there is Gmsh, it opens the file and finds every node and quad.
fn check_with_gmsh(mesh: &str, again: &str) {
    let Ok(output) = Command::new("gmsh").args([mesh, "-0", "-save_all", "-format", "vtk", "-o", again]).output()
    else {
        eprintln!("NOT RUN: Gmsh opens the mesh; there is no gmsh here");
        return;
    };
    let said = String::from_utf8_lossy(&output.stdout).into_owned();
    assert!(output.status.success() && said.contains("346 nodes") && said.contains("242 elements"), "{said}");
}

#[test]
fn figures_of_a_field_in_words() {
    let said = call(&["pave", "examples/right-eye.csv", "--size", "3.6"], b"");
    let lines: Vec<&str> = said.out.lines().collect();
    assert_eq!((said.status, said.err.as_str()), (0, ""));
    assert_eq!(lines[0], "examples/right-eye.csv: 81 % of the field is paved; 19 % is measured nowhere.");
    assert_eq!(lines[1], "  346 nodes, 242 quads; size 3.6°.");
    assert!(
        lines[2]
            .starts_with("  Smallest angle of a quad 55°, in the median 83°; its longest side is at most 2.2 times"),
        "{}",
        lines[2]
    );
    assert!(lines[3].starts_with("  Paved from the outline: 278 nodes, 194 quads, 62 % of the field"), "{}", lines[3]);
    assert!(lines[4].starts_with("  Paved round “blind spot”: 68 nodes, 48 quads, 19 % of the field"), "{}", lines[4]);
    let whole = call(&["pave", "examples/24-2.csv", "--size", "3"], b"");
    assert!(whole.out.starts_with("examples/24-2.csv: All of the field is paved.\n"), "{}", whole.out);
    assert!(whole.out.contains("90°; all its sides are alike."), "{}", whole.out);
}

/// The square of 20 by 20 with a blind spot of 4 by 4 is all right angles: 384 square degrees, and quads of 2 by 2.
#[test]
fn a_share_worked_out_by_hand() {
    let said = call(&["pave", "-", "--size", "2", "--json"], SQUARE.as_bytes());
    let number = |name: &str| {
        let from = said.out.find(&format!("\"{name}\":")).expect("the figure") + name.len() + 3;
        said.out[from..].split([',', '}']).next().expect("a word").to_string()
    };
    let quads: f64 = number("quads").parse().expect("a count");
    assert_eq!(number("share"), (quads * 4.0 / 384.0).to_string(), "{}", said.out);
    assert_eq!([number("sound"), number("whole"), number("overlaps")], ["true", "false", "false"]);
    let none = call(&["pave", "-", "--size", "2", "--passes", "0"], SQUARE.as_bytes());
    assert!(none.out.contains("None of the field is paved: it is measured nowhere.\n  The paving stopped early: every pass allowed was used"), "{}", none.out);
}

#[test]
fn standard_input_and_output() {
    let said = call(&["pave", "-", "--size", "2", "-o", "-", "--as", "json"], SQUARE.as_bytes());
    assert_eq!(said.status, 0);
    assert!(said.out.starts_with("{\"format\":\"sitjorbe-mesh-1\",\n\"version\":") && said.out.ends_with("}\n"));
    assert!(said.err.starts_with("sitjorbe: standard input: "), "{}", said.err);
    let figures = call(&["quality", "-"], said.out.as_bytes());
    assert_eq!(figures.status, 0, "{}", figures.err);
    let picture = call(&["pave", "-", "--size=2", "-o", "-"], SQUARE.as_bytes());
    check_xml(&picture.out);
}

#[test]
fn pictures_say_what_they_show() {
    let folder = folder("pictures");
    let out = inside(&folder, "a.svg");
    for (eye, words, sides) in
        [("right", "Right eye (OD)", ["nasal", "temporal"]), ("OS", "Left eye (OS)", ["temporal", "nasal"])]
    {
        let said = call(
            &["pave", "-", "--size", "2", "--eye", eye, "--title", "R&D <\"1\">\u{7}", "-o", &out],
            SQUARE.as_bytes(),
        );
        assert_eq!(said.status, 0, "{}", said.err);
        let svg = read(&out);
        check_xml(&svg);
        assert!(svg.contains("svg{forced-color-adjust:none}"), "where a system forces colours, these stay");
        assert!(svg.contains(words) && svg.contains("R&amp;D &lt;&quot;1&quot;&gt;"));
        let places = sides.map(|side| svg.find(&format!(">{side}<")).expect("the side is named"));
        assert!(places[0] < places[1], "the left one is drawn first");
        assert!(
            svg.contains(">superior<") && svg.contains(">inferior<") && svg.contains(">4°<") && svg.contains(">270°<")
        );
        assert!(
            svg.contains("of the field is paved; the red part, ")
                && svg.contains("is measured nowhere.")
                && svg.contains("paved round “blind spot”")
        );
    }
    let nowhere = call(&["pave", "-", "--size", "2", "-o", &out], SQUARE.as_bytes());
    assert_eq!(nowhere.status, 0);
    assert!(!read(&out).contains("nasal"), "no eye is guessed");
}

/// A document's labels of circles and meridians: words and box.
fn degrees(svg: &str) -> Vec<(String, [f64; 4])> {
    let label = |line: &str| {
        let attribute = |name: &str| line.split(&format!(" {name}=\"")).nth(1).and_then(|rest| rest.split('"').next());
        let number = |name: &str| attribute(name).expect("it is there").parse::<f64>().expect("a number");
        let words = line.split('>').nth(1).and_then(|rest| rest.split('<').next()).expect("it has words").to_string();
        let (width, x, y) = (0.58 * 11.0 * words.chars().count() as f64, number("x"), number("y"));
        let left = match attribute("text-anchor") {
            None => x,
            Some("middle") => x - width / 2.0,
            _ => x - width,
        };
        (words, [left, left + width, y - 10.0, y + 2.0])
    };
    svg.lines().filter(|line| line.contains("class=\"degrees\"")).map(label).collect()
}

#[test]
fn labels_dont_collide_or_vanish() {
    let fields = [
        (read(root().join("examples/right-eye.csv").to_str().expect("a name")), "3.6"),
        (read(root().join("examples/hemianopia.csv").to_str().expect("a name")), "2.65"),
        ("0,0\n60,0\n60,3\n0,3\n".to_string(), "1"),
        ("-1,-40\n2,-40\n2,50\n-1,50\n".to_string(), "1"),
        ("-0.01,-0.01\n30,-0.01\n30,40\n".to_string(), "2"),
        (SQUARE.to_string(), "5"),
    ];
    for (field, size) in fields {
        let svg = call(&["pave", "-", "--size", size, "-o", "-"], field.as_bytes()).out;
        let labels = degrees(&svg);
        for meridian in (0..360).step_by(30) {
            assert!(labels.iter().any(|(words, _)| *words == format!("{meridian}°")), "{field}: {meridian}°");
        }
        for (k, (words, a)) in labels.iter().enumerate() {
            for (other, b) in &labels[..k] {
                assert!(a[1] < b[0] || b[1] < a[0] || a[3] < b[2] || b[3] < a[2], "{field}: {words} and {other}");
            }
        }
        assert!(labels.len() > 13, "circles have degrees too");
    }
    let far = call(&["pave", "-", "--size", "0.1", "-o", "-"], b"100,100\n101,100\n101,100.8\n").out;
    assert!(degrees(&far).len() > 5);
}

/// The fills of a document's patches, of what is open and blind, and white, in linear light.
fn fills(svg: &str) -> Vec<[f64; 3]> {
    let light = |words: &str| {
        [1, 3, 5].map(|k| {
            let x = f64::from(u8::from_str_radix(&words[k..k + 2], 16).expect("a colour")) / 255.0;
            if x <= 0.04045 {
                x / 12.92
            } else {
                ((x + 0.055) / 1.055).powf(2.4)
            }
        })
    };
    let after = |mark: &str| svg.split(mark).nth(1).map(light).unwrap_or_else(|| panic!("no {mark}"));
    let mut fills: Vec<[f64; 3]> = (0..6).map(|k| after(&format!(".patch{k}{{fill:"))).collect();
    fills.extend([after("<pattern id=\"hatch\" width=\"7\" height=\"7\" patternUnits=\"userSpaceOnUse\" patternTransform=\"rotate(45)\"><rect width=\"7\" height=\"7\" fill=\""), after(".blind{fill:"), [1.0; 3]]);
    fills
}

/// A colour of linear light as CIE L*a*b*, where differences are about as large as they look.
fn lab([r, g, b]: [f64; 3]) -> [f64; 3] {
    let root = |t: f64| if t > 0.008856 { t.cbrt() } else { 7.787 * t + 16.0 / 116.0 };
    let x = root((0.4124 * r + 0.3576 * g + 0.1805 * b) / 0.95047);
    let y = root(0.2126 * r + 0.7152 * g + 0.0722 * b);
    let z = root((0.0193 * r + 0.1192 * g + 0.9505 * b) / 1.08883);
    [116.0 * y - 16.0, 500.0 * (x - y), 200.0 * (y - z)]
}

/// As a reader sees it who has all cones, and who lacks the long, the middle or the short ones (Machado, Oliveira and Fernandes 2009).
const READERS: [[[f64; 3]; 3]; 4] = [
    [[1.0, 0.0, 0.0], [0.0, 1.0, 0.0], [0.0, 0.0, 1.0]],
    [[0.152286, 1.052583, -0.204868], [0.114503, 0.786281, 0.099216], [-0.003882, -0.048116, 1.051998]],
    [[0.367322, 0.860646, -0.227968], [0.280085, 0.672501, 0.047413], [-0.011820, 0.042940, 0.968881]],
    [[1.255528, -0.076749, -0.178779], [-0.078411, 0.930809, 0.147602], [0.004733, 0.691367, 0.303900]],
];

#[test]
fn every_reader_tells_the_colours_apart() {
    let svg = call(&["pave", "-", "--size", "2", "-o", "-"], SQUARE.as_bytes()).out;
    for reader in READERS {
        let seen = |colour: &[f64; 3]| {
            lab(reader.map(|row| row.iter().zip(colour).map(|(a, b)| a * b).sum::<f64>().clamp(0.0, 1.0)))
        };
        let colours: Vec<[f64; 3]> = fills(&svg).iter().map(seen).collect();
        for (k, a) in colours.iter().enumerate() {
            for (other, b) in colours[..k].iter().enumerate() {
                let apart = a.iter().zip(b).map(|(x, y)| (x - y).powi(2)).sum::<f64>().sqrt();
                assert!(apart > 12.0, "colours {other} and {k} are {apart:.1} apart");
            }
        }
    }
}

#[test]
fn a_blind_spot_on_the_wrong_side_is_noted() {
    let [right, left] =
        ["right", "left"].map(|eye| call(&["pave", "examples/right-eye.csv", "--size", "3.6", "--eye", eye], b""));
    assert_eq!((right.status, right.err.as_str(), left.status), (0, "", 0));
    assert!(left.err.contains("its blind spot lies to the nose"), "{}", left.err);
}

#[test]
fn many_fields_in_one_call() {
    let folder = folder("many");
    let good = written(&folder, "good.csv", SQUARE.as_bytes());
    let refused = written(&folder, "refused.csv", b"0,0\n1,0\n");
    let absent = inside(&folder, "absent.csv");
    let out = inside(&folder, "{}.json");
    let said = call(&["pave", &absent, &refused, &good, "--size", "2", "-o", &out], b"");
    assert_eq!(said.status, 2);
    assert!(said.err.contains("absent.csv: No such file or directory\n"), "{}", said.err);
    assert!(said.err.contains("refused.csv: refused (2): a loop has fewer than three points: draw at least three, or leave the loop out (outline, of 2 points, at line 1)"));
    assert!(said.out.contains("good.csv: ") && Path::new(&inside(&folder, "good.json")).exists());
    assert!(!Path::new(&inside(&folder, "refused.json")).exists());
    assert_eq!(call(&["pave", &refused, &good, "--size", "2"], b"").status, 1);
    let both = call(&["pave", &refused, &good, "--size", "2", "-o", &inside(&folder, "one.svg")], b"");
    assert_eq!(both.status, 2);
    assert!(both.err.contains("would be written over") && both.err.contains("with {} in its name"), "{}", both.err);
    let nowhere = call(&["pave", &good, "--size", "2", "-o", &inside(&folder, "no/such/folder.svg")], b"");
    assert_eq!(nowhere.status, 2);
}

#[test]
fn the_best_size() {
    let share = |text: &str| {
        let from = text.find("\"share\":").expect("a share") + 8;
        text[from..].split(',').next().expect("a word").parse::<f64>().expect("a number")
    };
    let asked = call(&["pave", "examples/right-eye.csv", "--size", "4", "--json"], b"");
    let best = call(&["pave", "examples/right-eye.csv", "--size", "4", "--best", "--json"], b"");
    assert!(share(&best.out) > share(&asked.out), "{} {}", asked.out, best.out);
    let said = call(&["pave", "examples/right-eye.csv", "--size", "4", "--best"], b"");
    let tried = said.out.lines().nth(1).expect("a second line");
    assert!(
        tried.starts_with("  Tried 3.2° ")
            && tried.contains(", 4° ")
            && tried.contains(", 4.8° ")
            && tried.contains("; kept "),
        "{tried}"
    );
    let whole = call(&["pave", "examples/24-2.csv", "--size", "3", "--best"], b"");
    assert!(whole.out.contains("All of the field is paved.\n  Tried 3° 100 %; kept 3°."), "{}", whole.out);
}

/// More points than the program's files have room for, and more loops.
#[test]
fn beyond_the_programs_limits() {
    let circle: String = (0..4_096)
        .map(|k| (f64::from(k) * std::f64::consts::TAU / 4_096.0).sin_cos())
        .map(|(y, x)| format!("{},{}\n", 50.0 * x, 50.0 * y))
        .collect();
    let said = call(&["pave", "-", "--size", "0.5"], circle.as_bytes());
    assert_eq!(said.status, 0, "{}", said.err);
    let refused = call(&["pave", "-", "--size", "0.5"], (circle + "60,0\n").as_bytes());
    assert_eq!(refused.status, 1);
    assert!(
        refused.err.contains("refused (1): the outline has too many points") && refused.err.contains("(4,097 points)"),
        "{}",
        refused.err
    );
    let mut many = "-50,-50\n50,-50\n50,50\n-50,50\n".to_string();
    for k in 0..20 {
        let (x, y) = (-40 + 20 * (k % 5), -30 + 20 * (k / 5));
        many += &format!("\n# scotoma\n{x},{y}\n{},{y}\n{},{}\n{x},{}\n", x + 3, x + 3, y + 3, y + 3);
    }
    let said = call(&["pave", "-", "--size", "2", "-o", "-"], many.as_bytes());
    assert_eq!(said.status, 0, "{}", said.err);
    check_xml(&said.out);
    assert!(said.err.contains("Paved round “scotoma 20”"), "{}", said.err);
}

// ---- check

#[test]
fn sound_fields() {
    let said = call(&["check", "examples/right-eye.csv", "examples/hand-drawn.csv"], b"");
    assert_eq!((said.status, said.err.as_str()), (0, ""));
    assert!(
        said.out.starts_with(
            "examples/right-eye.csv: sound: right eye's central field (24 points), blind spot (8 points)\n"
        ),
        "{}",
        said.out
    );
    assert!(said.out.ends_with("arcuate scotoma (22 points)\n"));
}

#[test]
fn unsound_and_refused_fields_by_line() {
    let cases: [(&str, i32, &str); 18] = [
        ("0,0\n4,4\n4,0\n0,4\n", 1, "unsound: the segments from line 1 to line 2 and from line 3 to line 4 meet\n"),
        (
            "0,0\n4,0\n2,0\n2,3\n",
            1,
            "unsound: the segments from line 1 to line 2 and from line 2 to line 3 lie on each other\n",
        ),
        (
            "0,0\n9,0\n9,9\n0,9\n\n20,20\n21,20\n21,21\n",
            1,
            "unsound: the blind spot at line 6 isn't inside the outer outline\n",
        ),
        (
            "0,0\n9,0\n9,9\n0,9\n\n0,1\n2,1\n2,2\n",
            1,
            "unsound: the segments from line 4 to line 1 and from line 6 to line 7, of two loops, meet\n",
        ),
        (
            "0,0\n9,0\n9,9\n0,9\n\n1,1\n8,1\n8,8\n1,8\n\n2,2\n3,2\n3,3\n",
            1,
            "unsound: the blind spot at line 11 lies in that at line 6\n",
        ),
        (
            "0,0\n9,0\n9,9\n0,9\n\n2,2\n3,2\n3,3\n\n1,1\n8,1\n8,8\n1,8\n",
            1,
            "unsound: the blind spot at line 6 lies in that at line 10\n",
        ),
        ("0,0\n4,0\n4,0\n4,4\n0,4\n", 1, "standard input: unsound: line 3 repeats the point of line 2\n"),
        ("0,0\n9,0\n9,9\n0,9\n\n2,2\n3,2\n3,2\n3,3\n", 1, "unsound: line 8 repeats the point of line 7\n"),
        ("0\t0\n4,5\t0\n4,5\t4\n", 0, "sound: outline (3 points)\n"),
        ("0,0\n1,0\n\n2,2\n", 1, "refused (2)"),
        ("0,0\n1,0\n1,nan\n", 1, "(line 3: 1.0,NaN)"),
        ("0,0\n1,0\n1,-1000.5\n", 1, "(line 3: 1.0,-1000.5)"),
        ("0,0\n1,0\n2,0\n", 1, "refused (7)"),
        ("", 2, "there are no points"),
        ("0,0\n1;2\n", 2, "line 1, column 1: one value"),
        ("0,0\n9,0\n9,9\n# blind spot\n2,2\n", 2, "line 4, column 1: a comment between two points"),
        (
            "0,0\n1,0\n1,1\n0,0\n",
            0,
            "line 4: it repeats the point of line 1, so it is left out: a loop closes by itself\n",
        ),
        ("x;y\n0;0\n1,5;0\n1,5;1\n", 0, "line 1: taken for a heading: x;y\n"),
    ];
    for (text, status, part) in cases {
        let said = call(&["check", "-"], text.as_bytes());
        assert_eq!(said.status, status, "{text:?}: {}{}", said.out, said.err);
        assert!((said.out + &said.err).contains(part), "{text:?}");
    }
    for (size, number) in [("0", 5), ("nan", 5), ("1000", 6), ("0.001", 6)] {
        let said = call(&["check", "-", "--size", size], SQUARE.as_bytes());
        assert_eq!(said.status, 1);
        assert!(said.err.contains(&format!("refused ({number})")), "{}", said.err);
    }
    // A crossing at two points that lie on each other is one fault, though four pairs of segments meet there.
    let crossed = call(&["check", "-"], b"0,0\n2,2\n4,0\n4,4\n2,2\n0,4\n");
    assert_eq!((crossed.status, crossed.out.lines().count()), (1, 1), "{}", crossed.out);
    let unsound = call(&["pave", "-", "--size", "1"], b"0,0\n4,4\n4,0\n0,4\n");
    assert_eq!(unsound.status, 0);
    assert_eq!(call(&["pave", "-", "--size", "1", "--strict"], b"0,0\n4,4\n4,0\n0,4\n").status, 1);
    assert_eq!(call(&["pave", "-", "--size", "2", "--strict"], SQUARE.as_bytes()).status, 0, "open isn't unsound");
    assert!(
        unsound.err.contains("unsound: the segments")
            && unsound.out.contains("isn't sound, so how much of the field is paved can't be said")
    );
}

/// A last point that repeats the first no longer opens a field that is whole without it.
#[test]
fn a_repeated_point_changes_nothing() {
    let field = read(root().join("examples/24-2.csv").to_str().expect("a name"));
    let first = field.lines().find(|line| !line.starts_with('#')).expect("a point").to_string();
    let said = call(&["pave", "-", "--size", "3"], (field.trim_end().to_string() + "\n" + &first + "\n").as_bytes());
    assert!(said.out.starts_with("standard input: All of the field is paved."), "{}", said.out);
    assert!(said.err.contains("it repeats the point of line 3"), "{}", said.err);
}

// ---- hostile files

#[test]
fn hostile_fields() {
    let deep = "[".repeat(100_000);
    let wide = "1,".repeat(100_000);
    let many = "0,0\n\n".repeat(50_000);
    let texts: [&[u8]; 11] = [
        b"\xff\xfe\x00",
        b"\x00\x01\x02",
        b"0,0\n\x1b[2J,1\n",
        deep.as_bytes(),
        wide.as_bytes(),
        many.as_bytes(),
        b"\r\r\r",
        b",,,,\n;;;;\n",
        b"#\n#\n",
        b"1e308,1e308\n-1e308,1e308\n0,-1e308\n",
        "\u{feff}\u{feff}0,0".as_bytes(),
    ];
    for text in texts {
        for words in [&["check", "-"][..], &["pave", "-", "--size", "1"]] {
            let said = call(words, text);
            let shown = String::from_utf8_lossy(&text[..text.len().min(40)]).into_owned();
            assert!([1, 2].contains(&said.status), "{shown:?}: {} {}", said.status, said.out);
            assert!(
                !said.err.is_empty() && !said.err.chars().any(|c| c.is_control() && c != '\n'),
                "{shown:?}: {:?}",
                said.err
            );
            assert!(said.err.len() < 1_000_000, "{shown:?}");
        }
    }
    let crlf = call(&["check", "-"], b"\xef\xbb\xbf0,0\r\n1,0\r\n1,1\r\n");
    assert_eq!(crlf.status, 0, "{}", crlf.err);
    // The smallest there is, and the largest and farthest: drawn, and nowhere at no place.
    for text in [
        "5e-324,0\n0,5e-324\n-5e-324,0\n",
        "-1000,-1000\n1000,-1000\n1000,1000\n-1000,1000\n",
        "999,999\n999.5,999\n999.5,999.25\n",
    ] {
        let said = call(&["pave", "-", "--size", "100", "-o", "-", "--eye", "left"], text.as_bytes());
        assert_eq!(said.status, 0, "{}", said.err);
        check_xml(&said.out);
        assert!(!said.out.contains("NaN") && !said.out.contains("inf,") && !said.out.contains("inf\""), "{}", said.out);
    }
}

#[test]
fn hostile_meshes() {
    let mesh = call(&["pave", "-", "--size", "2", "-o", "-", "--as", "json"], SQUARE.as_bytes()).out;
    let line =
        |name: &str| mesh.lines().find(|line| line.starts_with(&format!("\"{name}\""))).expect("the part").to_string();
    let (nodes, quads) = (line("nodes"), line("quads"));
    let cases = [
        (String::new(), "line 1: a value is wanted"),
        ("{".to_string(), "a name in quotes is wanted"),
        ("[".repeat(100_000), "too many lists in lists"),
        ("{}".to_string(), "it has no format"),
        ("{\"format\":\"x\"}".to_string(), "it isn't a mesh that pave wrote"),
        (mesh.clone() + "x", "something follows the value"),
        (mesh[..mesh.len() / 2].to_string(), "line "),
        (mesh.replace(&nodes, "\"nodes\":[[0,1e999]],"), "this isn't a number"),
        (mesh.replace(&nodes, "\"nodes\":[[0,2000]],"), "nodes: number 0, counted from 0, isn't one: [0,2000]"),
        (mesh.replace(&nodes, "\"nodes\":[],"), "origins"),
        (mesh.replace(&quads, "\"quads\":[[0,1,2,99999]],"), "quads: number 0"),
        (mesh.replace(&quads, "\"quads\":[[0,1,2]],"), "quads: number 0"),
        (mesh.replace(&quads, "\"quads\":[[0,1,2,-1]],"), "quads: number 0"),
        (mesh.replace("\"quads\":[", "\"quads\":[[0,0,0,0],"), "quads: number 0, counted from 0, isn't one: [0,0,0,0]"),
        (mesh.replace("\"quads\":[", "\"quads\":[[3,2,1,0],"), "quads: number 0"),
        (mesh.replace(&quads, "\"quads\":[],"), "don't make up its outline"),
        (mesh.replace("[[-10,-10],[-8,-10]", "[[-10,-10.5],[-8,-10]"), "don't make up its outline"),
        (mesh.replace("\"end\":\"still\"", "\"end\":\"\\ud800\""), "half a character"),
    ];
    for (text, part) in cases {
        let said = call(&["quality", "-"], text.as_bytes());
        assert_eq!((said.status, said.out.as_str()), (2, ""), "{part}");
        assert!(said.err.contains(part), "{part}: {}", said.err);
    }
    // A mesh isn't whole because it says so.
    let said = call(&["quality", "-"], mesh.replace("\"whole\":false", "\"whole\":true").as_bytes());
    assert!(said.status == 0 && !said.out.contains("All of the field"), "{}", said.out);
}

// ---- the documents

/// A call that goes on until it is ended: it says its address first.
fn serves(line: &str, folder: &Path) {
    let mut command = Command::new("bash");
    let mut child =
        command.args(["-c", &format!("exec {line}")]).current_dir(folder).stdout(Stdio::piped()).spawn().expect("bash");
    let mut address = String::new();
    BufReader::new(child.stdout.take().expect("it is piped")).read_line(&mut address).expect("a line");
    child.kill().expect("it runs");
    child.wait().expect("it ends");
    assert!(address.starts_with("http://127.0.0.1:"), "{line}: {address}");
}

/// Every call that the documents show, in a folder with the examples, as it is shown; but for the port, which may be taken.
#[test]
fn the_calls_that_the_documents_show() {
    let folder = folder("documents");
    std::os::unix::fs::symlink(root().join("examples").canonicalize().expect("it is there"), folder.join("examples"))
        .expect("a link");
    fs::create_dir(folder.join("tools")).expect("a folder");
    std::os::unix::fs::symlink(env!("CARGO_BIN_EXE_sitjorbe"), folder.join("tools/sitjorbe")).expect("a link");
    let mut shown = 0;
    for page in ["README.md", "docs/COMMAND.md", "examples/README.md", "host/README.md", "tools/README.md"] {
        let text = read(root().join(page).to_str().expect("a name"));
        for line in text.lines().map(str::trim_start).filter(|line| line.starts_with("tools/sitjorbe ")) {
            shown += 1;
            if line.starts_with("tools/sitjorbe draw") {
                serves(&line.replace("8031", "0"), &folder);
                continue;
            }
            let output = Command::new("bash").args(["-c", line]).current_dir(&folder).output().expect("bash");
            assert!(output.status.success(), "{page}: {line}: {}", String::from_utf8_lossy(&output.stderr));
        }
    }
    assert!(shown >= 15, "{shown} calls are shown");
    for made in
        ["right-eye.svg", "right-eye.vtk", "right-eye.json", "left-eye.msh", "hill.svg", "upper.svg", "numbers.svg"]
    {
        assert!(folder.join(made).exists(), "{made}");
    }
}
