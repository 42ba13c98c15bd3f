//! `--close`: a closed mesh is written, read back, drawn, examined and ordered like any other; what stays open says where and why.

#[path = "common/called.rs"]
#[allow(dead_code)]
mod called;

use called::{call, check_xml, folder, inside, read, SQUARE};

const RIGHT_EYE: [&str; 4] = ["pave", "examples/right-eye.csv", "--size", "3.6"];

/// A part of a mesh's file, which stands on a line.
fn part(text: &str, name: &str) -> String {
    let line = text.lines().find(|line| line.starts_with(&format!("\"{name}\":")));
    line.unwrap_or_else(|| panic!("no {name}")).to_string()
}

#[test]
fn a_field_is_closed_and_says_so() {
    let open = call(&RIGHT_EYE, b"");
    let closed = call(&[&RIGHT_EYE[..], &["--close"]].concat(), b"");
    assert_eq!((closed.status, closed.err.as_str()), (0, ""), "{}", closed.err);
    assert!(open.out.contains("measured nowhere") && open.out.contains("Smaller quads"), "{}", open.out);
    let lines: Vec<&str> = closed.out.lines().collect();
    assert!(lines[0].starts_with("examples/right-eye.csv: All of the field is covered: "), "{}", lines[0]);
    assert!(
        lines[0].ends_with(" by the closing.")
            && !closed.out.contains("nowhere")
            && !closed.out.contains("Smaller quads")
    );
    assert!(lines[1].starts_with("  Closed: ") && lines[1].ends_with(" new."), "{}", lines[1]);
    // The same bytes on two runs, and nothing closed unasked.
    assert_eq!(call(&[&RIGHT_EYE[..], &["--close"]].concat(), b"").out, closed.out);
    let kept = call(&[&RIGHT_EYE[..], &["--close=keep"]].concat(), b"").out;
    assert!(kept.contains(", 0 of them with nodes moved; "), "{kept}");
    let whole = call(&["pave", "examples/24-2.csv", "--size", "3", "--close"], b"");
    assert!(whole.out.starts_with("examples/24-2.csv: All of the field is paved.\n"), "{}", whole.out);
    let wrong = call(&[&RIGHT_EYE[..], &["--close=all"]].concat(), b"");
    assert!(wrong.status == 2 && wrong.err.contains("--close is bend or keep, not all"));
}

/// Every file of a closed mesh tells paved quads from those of the closing.
#[test]
fn every_file_has_each_quads_kind() {
    let folder = folder("close-files");
    let endings = ["svg", "vtk", "msh", "json", "csv", "quads.csv", "steps.csv", "html"];
    let outputs = endings.map(|ending| inside(&folder, &format!("a.{ending}")));
    let mut words = [&RIGHT_EYE[..], &["--close"]].concat();
    outputs.iter().for_each(|output| words.extend(["-o", output]));
    let said = call(&words, b"");
    assert_eq!(said.status, 0, "{}", said.err);
    let [svg, vtk, msh, json, nodes, quads, _, html] = outputs.each_ref().map(|output| read(output));
    let rows: Vec<&str> = quads.lines().skip(2).collect();
    let count = |kind: &str| rows.iter().filter(|row| row.ends_with(&format!(",{kind}"))).count();
    let (kept, moved, new) = (count("kept"), count("moved"), count("new"));
    assert!(kept + moved > 100 && new > 20 && kept + moved + new == rows.len(), "{kept} {moved} {new}");
    let figures = format!("Closed: {} paved quads kept, {moved} of them with nodes moved; ", kept + moved);
    assert!(said.out.contains(&figures) && said.out.contains(&format!(", {new} new.")), "{}", said.out);
    assert_eq!(part(&json, "kinds").matches("\"new\"").count(), new);
    assert_eq!(part(&json, "left"), "\"left\":[],");
    assert!(vtk.contains("\nSCALARS kind int 1\nLOOKUP_TABLE default\n") && msh.contains("\"closing\""));
    assert!(
        nodes.lines().any(|row| row.ends_with(",closing")) && nodes.lines().any(|row| row.ends_with(",blind spot"))
    );
    assert!(rows.iter().filter(|row| row.contains(",closing,")).count() == new);
    for drawn in [&svg, &html] {
        check_xml(drawn);
        assert!(!drawn.contains("<path class=\"open\""), "nothing is open");
    }
    let rings = |class: &str| {
        let line = svg.lines().find(|line| line.contains(&format!("class=\"{class}\"")) && line.contains("<path"));
        line.map_or(0, |line| line.matches('Z').count())
    };
    assert_eq!((rings("closing"), rings("patch0") + rings("patch1")), (new, kept + moved));
    assert!(svg.contains(">closed</text>") && !svg.contains("measured nowhere"));
    let again = call(&["quality", &outputs[3]], b"");
    assert_eq!(again.status, 0, "{}", again.err);
    assert!(again.out.contains("All of the field is covered: "), "{}", again.out);
    assert_eq!(
        call(&["picture", &outputs[3], "-o", "-", "--title", "a"], b"").out,
        call(&[&RIGHT_EYE[..], &["--close", "-o", "-", "--title", "a"]].concat(), b"").out
    );
}

#[test]
fn a_closed_mesh_is_examined_and_ordered() {
    let folder = folder("close-exam");
    let [mesh, thresholds, order, report] = ["m.json", "t.csv", "o.txt", "r.html"].map(|name| inside(&folder, name));
    assert_eq!(
        call(&["pave", "-", "--size", "2.3", "--close", "-o", &mesh, "-o", &thresholds], SQUARE.as_bytes()).status,
        0
    );
    let text: String = read(&thresholds)
        .lines()
        .map(|line| {
            let mut words: Vec<&str> = line.split(',').collect();
            words.get_mut(3).filter(|word| word.is_empty()).map(|word| *word = "30");
            words.join(",") + "\n"
        })
        .collect();
    std::fs::write(&thresholds, text).expect("a file");
    assert_eq!(call(&["order", &mesh, "-", "--nearest", "-o", &order], b"").status, 0);
    let said = call(&["exam", &mesh, "--thresholds", &thresholds, "--order", &order, "-o", &report], b"");
    assert_eq!(said.status, 0, "{}", said.err);
    assert!(said.out.contains("All of the field is covered: "), "{}", said.out);
    assert!(read(&report).contains("100 % of the field is measured."));
}

/// A corner in which no quad fits stays open, with its place and its reason; and so does what a file claims to be closed and isn't.
#[test]
fn what_stays_open_says_where_and_why() {
    let folder = folder("close-open");
    let mesh = inside(&folder, "m.json");
    let spike = b"-10,-10\n10,-10\n30,-9\n10,-7\n10,10\n-10,10\n";
    let said = call(&["pave", "-", "--size", "2", "--close", "-o", &mesh], spike);
    assert_eq!(said.status, 0, "{}", said.err);
    assert!(
        said.out.contains("is measured nowhere.") && said.out.contains("It stays open at 30, -9: a corner of "),
        "{}",
        said.out
    );
    assert!(part(&read(&mesh), "stays_open").contains("\"at\":[30,-9]"));
    let closed = call(&["pave", "-", "--size", "2", "--close", "-o", "-", "--as", "json"], SQUARE.as_bytes()).out;
    let quads = part(&closed, "quads");
    let last = quads.rfind(",[").expect("a last quad");
    let claims = closed.replace(&quads, &(quads[..last].to_string() + "],"));
    let kinds = part(&closed, "kinds");
    let last = kinds.rfind(',').map_or(kinds.len(), |place| kinds[..place].rfind(',').expect("a kind"));
    let claims = claims.replace(&kinds, &(kinds[..last].to_string() + "],"));
    let said = call(&["quality", "-"], claims.as_bytes());
    assert!(said.status == 2 && !said.err.is_empty(), "{}{}", said.out, said.err);
    // Areas balance and every quad turns left, but one lies where another does.
    let twice = b"{\"format\":\"sitjorbe-mesh-1\",\"size\":2,\"sweeps\":400,\"passes\":600,\"end\":\"still\",\"loops\":[{\"name\":\"outline\",\"points\":[[0,0],[4,0],[4,2],[0,2]]}],\
        \"nodes\":[[0,0],[2,0],[4,0],[4,2],[2,2],[0,2]],\"origins\":[0,0,0,0,0,0],\"quads\":[[0,1,4,5],[0,1,4,5]],\"left\":[],\"kinds\":[\"kept\",\"new\"],\"given_back\":0}";
    let said = call(&["quality", "-"], twice);
    assert!(
        said.status == 2 && said.err.contains("it says that it is closed, and it isn't"),
        "{}{}",
        said.out,
        said.err
    );
}

/// A mesh that was written open is closed as it would have been at once.
#[test]
fn a_mesh_is_closed_afterwards() {
    let folder = folder("close-later");
    let [open, at_once, later] = ["open.json", "once.json", "later.json"].map(|name| inside(&folder, name));
    assert_eq!(call(&[&RIGHT_EYE[..], &["-o", &open]].concat(), b"").status, 0);
    assert_eq!(call(&[&RIGHT_EYE[..], &["--close", "-o", &at_once]].concat(), b"").status, 0);
    assert_eq!(call(&["picture", &open, "--close", "-o", &later], b"").status, 0);
    assert_eq!(part(&read(&later), "quads"), part(&read(&at_once), "quads"));
    assert_eq!(part(&read(&later), "nodes"), part(&read(&at_once), "nodes"));
    let again = call(&["picture", &later, "--close", "-o", "-", "--as", "quads.csv"], b"");
    assert_eq!(again.out, call(&["picture", &at_once, "-o", "-", "--as", "quads.csv"], b"").out);
}
