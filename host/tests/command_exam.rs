//! An examination by the command: exams and their reports, orders, places, and the small quads.

#[path = "common/called.rs"]
#[allow(dead_code)]
mod called;

use std::path::Path;

use called::{call, check_xml, folder, inside, read, written, SQUARE};

/// The square's mesh at size 2, in a folder of a test's own: the mesh, and a file of thresholds, all of them 20 dB but for some nodes.
fn mesh(folder: &Path, without: &[usize]) -> (String, String) {
    let (mesh, empty) = (inside(folder, "mesh.json"), inside(folder, "t.csv"));
    let words = ["pave", "-", "--size", "2", "--title", "A <field>", "--eye", "right", "-o", &mesh, "-o", &empty];
    assert_eq!(call(&words, SQUARE.as_bytes()).status, 0);
    let text = read(&empty);
    let row = |line: &str| {
        let mut words: Vec<&str> = line.split(',').collect();
        if words.len() > 4 && words[3].is_empty() && !without.iter().any(|node| words[0] == node.to_string()) {
            words[3] = "20";
        }
        words.join(",") + "\n"
    };
    (mesh, written(folder, "t.csv", text.lines().map(row).collect::<String>().as_bytes()))
}

/// The quads of a mesh's file.
fn quads(mesh: &str) -> Vec<[usize; 4]> {
    let text = read(mesh);
    let line = text.lines().find(|line| line.starts_with("\"quads\":")).expect("quads").to_string();
    let ids: Vec<usize> = line.split(|c: char| !c.is_ascii_digit()).filter_map(|word| word.parse().ok()).collect();
    ids.chunks_exact(4).map(|four| [four[0], four[1], four[2], four[3]]).collect()
}

#[test]
fn an_exam_is_counted_written_and_opened_again() {
    let folder = folder("exam");
    let (mesh, thresholds) = mesh(&folder, &[0, 7]);
    let quads = quads(&mesh);
    let lacking = quads.iter().filter(|quad| quad.contains(&0) || quad.contains(&7)).count();
    assert!(lacking > 1 && lacking < quads.len());
    let [report, exam, hill] = ["report.html", "exam.json", "hill.svg"].map(|name| inside(&folder, name));
    let words = ["exam", &mesh, "--thresholds", &thresholds, "-o", &report, "-o", &exam, "-o", &hill];
    let said = call(&words, b"");
    assert_eq!(said.status, 0, "{}", said.err);
    let measured = quads.len() - lacking;
    // Worked out by hand: four thresholds of 20 dB a quad.
    let figures =
        format!("{measured} of {} quads have all four; their thresholds sum up to {} dB.", quads.len(), 80 * measured);
    assert!(said.out.contains(&figures), "{}", said.out);
    assert!(read(&exam).contains(&format!("\"exam\":{{\"quads\":{measured},\"sum\":{}}}", 800 * measured)));
    check_xml(&read(&hill));
    // The exam is a mesh with its thresholds: it is opened by every command, and says the same.
    let again = call(&["exam", &exam], b"");
    assert_eq!(
        again.out.split_once(": ").map(|(_, figures)| figures),
        said.out.split_once(": ").map(|(_, figures)| figures)
    );
    let picture = call(&["picture", &exam, "-o", "-"], b"");
    assert_eq!(picture.out, read(&hill));
    assert_eq!(call(&["quality", &exam], b"").status, 0);
    let none = call(&["exam", &mesh], b"");
    assert!(none.status == 2 && none.err.contains("--thresholds is wanted"), "{}", none.err);
}

/// Nothing that wasn't measured is drawn as measured: of the quads those with all four thresholds are shaded, each of the others is dotted.
#[test]
fn a_report_shows_what_was_measured() {
    let folder = folder("report");
    let (mesh, thresholds) = mesh(&folder, &[0, 7]);
    let report = inside(&folder, "report.html");
    let words = ["exam", &mesh, "--thresholds", &thresholds, "--date", "2026-11-27", "-o", &report];
    assert_eq!(call(&words, b"").status, 0);
    let html = read(&report);
    check_xml(&html);
    let quads = quads(&mesh);
    let lacking = quads.iter().filter(|quad| quad.contains(&0) || quad.contains(&7)).count();
    let paths = |class: &str| {
        let lines = html.lines().filter(|line| line.contains(&format!("class=\"{class}\"")) && line.contains("<path"));
        lines.map(|line| line.matches('Z').count()).sum::<usize>()
    };
    assert_eq!(paths("lacking"), lacking);
    // All thresholds are alike, so each row of four patches is one.
    assert_eq!(paths("shade"), 4 * (quads.len() - lacking));
    assert_eq!(html.matches("class=\"place\"").count(), quads.len(), "each quad has its place in the order");
    for part in [
        "A &lt;field&gt;",
        "Right eye (OD)",
        "2026-11-27",
        ">nasal<",
        ">temporal<",
        "is measured nowhere.",
        "no estimate: a threshold is missing",
        "Quads with all four",
        "Sum over these quads",
        "Size</td><td>2°",
        "Proved: ",
        "as they were placed",
        "blind spot",
        "sitjorbe ",
    ] {
        assert!(html.contains(part), "{part}");
    }
    assert!(
        !html.contains("http://")
            || html.matches("http://").count() == html.matches("http://www.w3.org/2000/svg").count()
    );
}

#[test]
fn orders_are_accepted_refused_and_made() {
    let folder = folder("orders");
    let (mesh, thresholds) = mesh(&folder, &[]);
    let count = quads(&mesh).len();
    let order = |name: &str, quads: &[usize]| {
        let text: Vec<String> = quads.iter().map(usize::to_string).collect();
        written(&folder, name, format!("# an order\n{}\n", text.join(" ")).as_bytes())
    };
    let placed: Vec<usize> = (0..count).collect();
    let good = order("good.txt", &placed);
    let said = call(&["order", &mesh, &good], b"");
    assert_eq!((said.status, said.out), (0, format!("{good}: accepted: {count} quads may be tested in this order\n")));
    let wish = order("wish.txt", &placed.iter().rev().copied().collect::<Vec<_>>());
    let near = inside(&folder, "near.txt");
    assert_eq!(call(&["order", &mesh, &wish, "--nearest", "-o", &near], b"").status, 0);
    let made = read(&near);
    assert!(made.starts_with("# mesh ") && made.lines().count() == count + 1);
    assert_eq!(call(&["order", &mesh, &near], b"").status, 0);
    let numbers: Vec<&str> = made.lines().skip(1).collect();
    assert_ne!(numbers, placed.iter().map(usize::to_string).collect::<Vec<_>>(), "the wish changed it");
    let report = inside(&folder, "report.html");
    let said = call(&["exam", &mesh, "--thresholds", &thresholds, "--order", &near, "-o", &report], b"");
    assert_eq!(said.status, 0, "{}", said.err);
    assert!(read(&report).contains("Order: accepted"));
    let reversed: Vec<usize> = placed.iter().rev().copied().collect();
    let mut twice = placed.clone();
    twice[5] = 2;
    for (name, listed, part) in [
        ("short.txt", &placed[1..], "refused (21)"),
        ("none.txt", &placed[..0], &format!("(quad 0 is missing, the first of {count} quads)")),
        ("twice.txt", &twice[..], "(quad 2 stands at place 3 and again at place 6)"),
        ("far.txt", &[9_999][..], "(at place 1 stands quad 9999, and the mesh has "),
        ("early.txt", &reversed[..], "refused (22)"),
    ] {
        let file = order(name, listed);
        for words in [&["order", &mesh, &file][..], &["exam", &mesh, "--thresholds", &thresholds, "--order", &file]] {
            let said = call(words, b"");
            assert_eq!((said.status, said.out.as_str()), (1, ""), "{words:?}");
            assert!(said.err.contains(&format!("{name}: ")) && said.err.contains(part), "{}", said.err);
        }
    }
    let early = call(&["order", &mesh, &order("early.txt", &reversed)], b"").err;
    assert!(early.contains(", before quad ") && early.contains(", which it waits for)"), "{early}");
    let bad = call(&["order", &mesh, "-"], b"0 1 x\n");
    assert!(
        bad.status == 2 && bad.err.contains("standard input: line 1: this isn't a quad's number: x"),
        "{}",
        bad.err
    );
}

#[test]
fn places_by_the_librarys_queries() {
    let folder = folder("places");
    let field = written(&folder, "square.csv", SQUARE.as_bytes());
    let said = call(&["contains", &field, "0,0", "4,0", "-11,0", "-9.5,-9.5"], b"");
    assert_eq!((said.status, said.err.as_str()), (0, ""));
    assert_eq!(
        said.out,
        "0,0: in the field\n4,0: in “blind spot”\n-11,0: outside the outline\n-9.5,-9.5: in the field\n"
    );
    let said = call(&["nearest", &field, "5,0", "-9.5,1"], b"");
    assert_eq!(
        said.out,
        "5,0: edge 1,2 of blind spot, from line 10 to line 11, is 1° away; the place is in “blind spot”\n\
         -9.5,1: edge 0,3 of field, from line 5 to line 2, is 0.5° away; the place is in the field\n"
    );
    for (words, status, part) in [
        (&["nearest", &field, "1e9,0"][..], 1, "1000000000,0: refused (4)"),
        (&["contains", &field, "nan,0"], 1, "refused (3)"),
        (&["nearest", &field, "1"], 2, "a place is X,Y, two numbers in degrees: 1"),
        (&["nearest", &field], 2, "no place is given"),
        (&["contains"], 2, "a field and a place are wanted"),
    ] {
        let said = call(words, b"");
        assert_eq!((said.status, said.out.as_str()), (status, ""), "{words:?}");
        assert!(said.err.contains(part), "{}", said.err);
    }
}

#[test]
fn small_quads_as_a_table_and_a_picture() {
    let folder = folder("small-quads");
    let [table, picture] = ["small.csv", "small.svg"].map(|name| inside(&folder, name));
    let said = call(&["small-quads", "-o", &table, "-o", &picture], b"");
    assert_eq!((said.status, said.out.as_str()), (0, ""), "{}", said.err);
    let rows = read(&table);
    assert_eq!(rows.lines().count(), 1 + 3_736);
    assert_eq!(rows.lines().nth(1), Some("0,0,1,5,4,0,0,1,0,1,1,0,1"));
    assert!(rows.lines().skip(1).all(|row| {
        let numbers: Vec<u32> = row.split(',').map(|word| word.parse().expect("a number")).collect();
        (0..4).all(|k| numbers[5 + 2 * k] + 4 * numbers[6 + 2 * k] == numbers[1 + k])
    }));
    check_xml(&read(&picture));
    assert_eq!(call(&["small-quads"], b"").status, 2);
    assert_eq!(call(&["small-quads", "-o", "a.png"], b"").status, 2);
}

#[test]
fn steps_of_the_bowl() {
    let folder = folder("steps");
    let (mesh, _) = mesh(&folder, &[]);
    let steps = inside(&folder, "a.steps.csv");
    assert_eq!(call(&["picture", &mesh, "-o", &steps], b"").status, 0);
    let text = read(&steps);
    assert_eq!(text.lines().nth(1), Some("node,steps_x,steps_y,x,y"));
    assert_eq!(text.lines().nth(2), Some("0,-640,-640,-10.0,-10.0"));
    let narrow = call(&["pave", "-", "--size", "0.01", "-o", &steps], b"0,0\n0.05,0\n0.05,0.05\n0,0.05\n");
    assert_eq!(narrow.status, 1);
    assert!(narrow.err.contains("refused (25)") && narrow.err.contains(" (quad "), "{}", narrow.err);
}
