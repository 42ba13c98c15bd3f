//! The page, and each answer beside the library's own.

use std::fs;
use std::path::Path;
use std::process::Command;

use sitjorbe::raw::{contains, direction, field, is_sound, nearest_segment, Outline, Settings};
use sitjorbe::{Memory, Places, Refusal};

use crate::client::Server;
use crate::common::rng::Rng;
use crate::json::{self, Value};
use crate::{bits, body, drawing, ids, list, part, square, text, with_hole, Loops};

const SETTINGS: Settings = Settings { size: 1.0, sweeps: 400, passes: 600 };

fn root() -> std::path::PathBuf {
    Path::new(env!("CARGO_MANIFEST_DIR")).join("..")
}

fn loops_of(value: &Value) -> Loops {
    let points = |loop_: &Value| list(loop_, "points").iter().map(|point| point.as_point().expect("a point")).collect();
    list(value, "loops").iter().map(points).collect()
}

/// What the command writes to standard output in the repository's root.
fn command(words: &[&str]) -> String {
    let output = Command::new(env!("CARGO_BIN_EXE_sitjorbe")).args(words).current_dir(root()).output().expect("built");
    assert!(output.status.success(), "{}", String::from_utf8_lossy(&output.stderr));
    String::from_utf8(output.stdout).expect("text")
}

/// The parts of the page's script, in their order.
const SCRIPTS: [&str; 15] = [
    "state",
    "ask",
    "view",
    "shapes",
    "panel",
    "drawing",
    "steps",
    "files",
    "gestures",
    "surface",
    "exam",
    "exam_view",
    "hill",
    "exam_panel",
    "page",
];

#[test]
fn the_page() {
    let server = Server::start();
    let [one, other] = [(); 2].map(|()| server.get("/"));
    let nonces = [&one, &other].map(|said| {
        assert_eq!(said.status, 200);
        assert_eq!(said.header("Content-Type"), Some("text/html; charset=utf-8"));
        assert_eq!(said.header("X-Content-Type-Options"), Some("nosniff"));
        assert_eq!(said.header("Cache-Control"), Some("no-store"));
        assert_eq!(said.header("Referrer-Policy"), Some("no-referrer"));
        assert_eq!(said.header("Connection"), Some("close"));
        let policy = said.header("Content-Security-Policy").expect("a policy");
        let nonce =
            policy.split("script-src 'nonce-").nth(1).and_then(|rest| rest.split('\'').next()).expect("a nonce");
        assert!(nonce.len() == 32 && nonce.bytes().all(|byte| byte.is_ascii_hexdigit()), "{nonce}");
        let rest = policy.replace(nonce, "N");
        let rules = [
            "default-src 'none'",
            "base-uri 'none'",
            "form-action 'none'",
            "frame-ancestors 'none'",
            "script-src 'nonce-N'",
            "style-src 'nonce-N'",
            "connect-src 'self'",
            "img-src data: blob:",
        ];
        assert_eq!(rest, rules.join("; "));
        let page = said.text();
        assert!(page.contains(&format!("<script type=\"module\" nonce=\"{nonce}\">")), "the script may run");
        assert!(page.contains(&format!("<style nonce=\"{nonce}\">")), "the style holds");
        nonce.to_string()
    });
    assert_ne!(nonces[0], nonces[1]);
    // The whole page is there: what is put into it is neither cut off nor changed.
    let folder = root().join("host/src/bin/sitjorbe/draw/page");
    let kept = |name: &str| fs::read_to_string(folder.join(name)).expect("a part of the page");
    let script: String = SCRIPTS.iter().map(|name| kept(&format!("{name}.js"))).collect();
    let page = kept("page.html").replace("{{nonce}}", &nonces[0]);
    let page = page.replace("{{style}}", &kept("page.css")).replace("{{script}}", &script);
    assert!(one.text() == page);
    assert!(!script.contains("</script") && !kept("page.css").contains("</style"));
    assert_eq!([page.matches("<script").count(), page.matches("<style").count()], [1, 1], "none is without a nonce");
    let parts = fs::read_dir(&folder).expect("a folder").count();
    // The masked reader's page has a text and a script of its own.
    assert_eq!(parts, SCRIPTS.len() + 2 + 2, "every part is in a page");
}

/// The examples are the repository's, and the mesh of each is what the library makes and the command writes.
#[test]
fn examples_are_paved_as_the_library_paves_them() {
    let server = Server::start();
    let answer = server.value("/examples", &Value::map([]));
    let names: Vec<&str> = list(&answer, "examples").iter().map(|example| text(example, "name")).collect();
    let wanted = ["right-eye", "left-eye", "24-2", "30-2", "hemianopia", "hand-drawn", "halves/upper", "halves/lower"];
    assert_eq!(names, wanted);
    for example in list(&answer, "examples") {
        let (name, size) = (text(example, "name"), part(example, "size").as_number().expect("a size"));
        let mut asked = example.clone();
        if let Value::Map(pairs) = &mut asked {
            pairs.push(("title".to_string(), Value::text("A title")));
        }
        let paved = server.value("/pave", &asked);
        assert_eq!((part(&paved, "refusal"), part(&paved, "sound")), (&Value::Null, &Value::Bool(true)));
        assert_eq!(list(&paved, "faults"), []);
        assert!(part(&paved, "seconds").as_number().is_some_and(|seconds| seconds > 0.0));
        let mesh = part(&paved, "mesh");
        as_the_library_paves(&loops_of(example), size, mesh);

        let (file, size) = (format!("examples/{name}.csv"), size.to_string());
        let eye = part(example, "eye").as_text().map(|eye| ["--eye", eye]);
        let words = [
            &["pave", &file, "--size", &size, "--title", "A title", "-o", "-"][..],
            eye.as_ref().map_or(&[], |eye| eye),
        ];
        let written = json::parse(&command(&[words.concat(), vec!["--as", "json"]].concat())).expect("JSON");
        for part in ["end", "whole", "figures", "nodes", "origins", "quads", "left"] {
            assert_eq!(mesh.get(part).map(Value::to_string), written.get(part).map(Value::to_string), "{name}: {part}");
        }
        assert_eq!(example.get("loops"), written.get("loops"), "{name}");
        let picture = server.value("/picture", &asked);
        assert!(text(&picture, "svg") == command(&words.concat()), "{name}: another picture");
    }
}

fn as_the_library_paves(loops: &Loops, size: f64, mesh: &Value) {
    let drawing = drawing(loops);
    let mut memory = Memory::new(Places::for_outline(&drawing.outline(), size, 1).unwrap()).unwrap();
    let expected = memory.pave(&drawing.outline(), &Settings { size, ..SETTINGS }).unwrap();
    let nodes: Vec<[u64; 2]> = expected.nodes().map(|node| node.map(f64::to_bits)).collect();
    assert_eq!(list(mesh, "nodes").iter().map(bits).collect::<Vec<_>>(), nodes);
    assert_eq!(ids(mesh, "quads"), expected.quads().map(|quad| quad.to_vec()).collect::<Vec<_>>());
    assert_eq!(ids(mesh, "left"), expected.front_loops().map(<[u32]>::to_vec).collect::<Vec<_>>());
    let origins: Vec<Option<usize>> = list(mesh, "origins").iter().map(|origin| origin.as_count(65_535)).collect();
    assert_eq!(origins, expected.origins().iter().map(|origin| Some((*origin).into())).collect::<Vec<_>>());
    assert_eq!(text(mesh, "end"), expected.end().to_string());
    assert_eq!(part(mesh, "whole"), &Value::Bool(expected.is_whole()));
    assert_eq!(part(mesh, "verdict").as_text() == Some("All of the field is paved."), expected.is_whole());
}

#[test]
fn words_of_a_mesh() {
    let server = Server::start();
    let nasal = vec![
        vec![[-30.0, -30.0], [30.0, -30.0], [30.0, 30.0], [-30.0, 30.0]],
        vec![[-17.0, -3.0], [-17.0, 3.0], [-12.0, 3.0], [-12.0, -3.0]],
    ];
    let ask = |eye: Value| {
        let answer = server.value("/pave", &body(&nasal, &[("size", Value::Number(5.0)), ("eye", eye)]));
        let words = |words: &Value| words.as_text().expect("words").to_string();
        let mesh = part(&answer, "mesh");
        assert!(text(mesh, "verdict").contains("the red part, "), "{mesh}");
        ["sentences", "notes"].map(|name| list(mesh, name).iter().map(words).collect::<Vec<_>>())
    };
    let [plain, left, right] = [Value::Null, Value::text("left"), Value::text("right")].map(ask);
    assert_eq!(plain, left);
    let [sentences, notes] = plain;
    assert!(sentences[0].ends_with("; size 5°."), "{sentences:?}");
    assert!(sentences.iter().any(|words| words.starts_with("Paved round “loop 1”: ")), "{sentences:?}");
    assert_eq!((right[0] == sentences, notes.len(), right[1].len()), (true, 0, 1));
    assert!(right[1][0].contains("lies to the nose"));
}

/// What /write writes /read reads, bit by bit, with the names.
#[test]
fn written_and_read_again() {
    let server = Server::start();
    let mut rng = Rng(31);
    let awkward =
        [-0.0, 0.0, 5e-324, -2.2e-308, 0.1, 1e300, -1_000.0, 1.0 / 3.0, f64::MAX, 123_456_789.123, 1e15, 1e16];
    for round in 0..60 {
        let mut number = || if rng.once_in(2) { rng.pick(&awkward) } else { 40.0 * rng.unit() };
        let mut loops: Loops =
            (0..1 + round % 4).map(|k| (0..1 + (round + k) % 9).map(|_| [number(), number()]).collect()).collect();
        if round % 3 == 0 {
            // A loop that closes by itself is kept as it is, as is one that does so twice.
            let first = loops[0][0];
            loops[0].extend(vec![first; 1 + round % 2]);
        }
        let asked = body(&loops, &[]);
        let written = server.value("/write", &asked);
        let read = server.value("/read", &written);
        assert_eq!(read.get("loops").map(Value::to_string), asked.get("loops").map(Value::to_string), "{written}");
    }
    let name = |name: &str| {
        Value::map([
            ("name", Value::text(name)),
            ("points", Value::List(square(1.0).into_iter().map(Value::point).collect())),
        ])
    };
    let names = ["", "A field's edge", "spot\n5,5\r# x", "spot", "spot", "  "].map(name);
    let empty = Value::map([("name", Value::text("nothing")), ("points", Value::List(vec![]))]);
    let asked = Value::map([("loops", Value::List([names.to_vec(), vec![empty]].concat()))]);
    let read = server.value("/read", &server.value("/write", &asked));
    let names: Vec<&str> = list(&read, "loops").iter().map(|loop_| text(loop_, "name")).collect();
    assert_eq!(names, ["outline", "field's edge", "spot 5", "spot 1", "spot 2", "blind spot"]);
    assert_eq!(list(&read, "notes"), []);
}

#[test]
fn texts_that_are_read() {
    let server = Server::start();
    let read = |words: &str| server.value("/read", &Value::map([("text", Value::text(words))]));
    let value = read("\u{feff}x;y\r\n0;0\r\n1,5;0\r\n\r\n# The spot\r\n0;1\r\n0;1\r\n");
    assert_eq!(loops_of(&value), [vec![[0.0, 0.0], [1.5, 0.0]], vec![[0.0, 1.0]]]);
    assert_eq!(text(&list(&value, "loops")[1], "name"), "spot");
    assert_eq!(list(&value, "notes").len(), 2, "{value}");
    assert_eq!(value.get("wrong"), None);
    let value = read("0,0\n1\nx,y\n");
    let wrong: Vec<&str> = list(&value, "wrong").iter().map(|line| line.as_text().expect("words")).collect();
    assert!(
        wrong.len() == 2 && wrong[0].starts_with("line 2, column 1: ") && wrong[1].starts_with("line 3, column 1: "),
        "{wrong:?}"
    );
    assert_eq!(value.get("loops"), None);
    let nothing = read("");
    assert_eq!((list(&nothing, "loops"), list(&nothing, "notes")), (&[][..], &[][..]));
    for name in ["size", "eye", "digest"] {
        assert_eq!(part(&nothing, name), &Value::Null, "a text of points has none");
    }
}

/// A refusal: its number, loop and point, and the words after the library's own.
type Refused<Words> = (u32, Option<usize>, Option<usize>, Words);

fn refusal(answer: &Value) -> Refused<String> {
    let refusal = part(answer, "refusal");
    let number = part(refusal, "number").as_count(99).expect("a number") as u32;
    let place = |name: &str| part(refusal, name).as_count(9_999);
    // Of 1 an operator's: lists are nothing to whoever draws.
    let words = match number {
        1 => "refused (1): the outline has too many points: at most 4,096 are taken in all loops together, so draw fewer, or thin it".to_string(),
        _ => Refusal::of_number(number).expect("a refusal's number").to_string(),
    };
    let rest = text(refusal, "words").strip_prefix(&words).expect("the library's words").to_string();
    (number, place("loop"), place("point"), rest)
}

#[test]
fn refusals_and_where() {
    let server = Server::start();
    let far = vec![square(8.0), vec![[3.0, 3.0], [3.0, 5.0], [5.0, -1_000.5], [5.0, 3.0]]];
    let short = vec![square(8.0), vec![[3.0, 3.0], [4.0, 3.0]]];
    let many = vec![(0..4_097).map(|k| [f64::from(k), f64::from(k % 7)]).collect()];
    let flat = vec![vec![[0.0, 0.0], [1.0, 0.0], [2.0, 0.0]]];
    let one = Value::Number(1.0);
    let cases: [(Loops, Value, Refused<&str>); 9] = [
        (far, one.clone(), (4, Some(1), Some(2), " (point 3 of “loop 1”: 5.0,-1000.5)")),
        (short, Value::Null, (2, Some(1), None, " (“loop 1”, of 2 points)")),
        (vec![square(8.0), vec![]], one.clone(), (2, Some(1), None, " (“loop 1”, of 0 points)")),
        (vec![], one.clone(), (2, None, None, "")),
        (many, one.clone(), (1, None, None, " (4,097 points)")),
        (flat, one, (7, None, None, "")),
        (with_hole(), Value::Number(0.0), (5, None, None, "")),
        (with_hole(), Value::Number(-1.0), (5, None, None, "")),
        (with_hole(), Value::Number(0.001), (6, None, None, "")),
    ];
    for (loops, size, (number, in_loop, point, words)) in cases {
        let expected = (number, in_loop, point, words.to_string());
        let asked =
            body(&loops, &[("size", size.clone()), ("moves", Value::List(vec![])), ("points", Value::List(vec![]))]);
        let answer = server.value("/check", &asked);
        assert_eq!(refusal(&answer), expected);
        assert_eq!((part(&answer, "sound"), list(&answer, "faults")), (&Value::Null, &[][..]));
        if size == Value::Null {
            continue;
        }
        for path in ["/pave", "/picture", "/crosses", "/step"] {
            let answer = server.value(path, &asked);
            assert_eq!(refusal(&answer), expected, "{path}");
            assert!(["mesh", "svg", "directions", "nodes"].iter().all(|name| answer.get(name).is_none()), "{path}");
        }
    }
    let far = server.value("/nearest", &body(&with_hole(), &[("at", Value::point([0.0, 1_001.0]))]));
    assert_eq!(refusal(&far), (4, None, None, String::new()));
    let fine = server.value("/check", &body(&with_hole(), &[("size", Value::Null)]));
    assert_eq!((part(&fine, "refusal"), part(&fine, "sound")), (&Value::Null, &Value::Bool(true)));
}

/// What is unsound, by loop and point, with the segments to mark. Whether it is is the library's word.
#[test]
fn unsound_places() {
    let server = Server::start();
    let hole = |x: f64, y: f64, side: f64| vec![[x, y], [x, y + side], [x + side, y + side], [x + side, y]];
    let all = |k: usize| (0..4).map(|place| [k, place]).collect::<Vec<_>>();
    type Fault<'a> = (&'a str, Vec<[usize; 2]>);
    let meet = "the segments from point 2 to point 3 of “loop 0” and from point 4 to point 1 of “loop 0” meet";
    // Each with its first fault; one that folds back meets what comes after it too.
    let cases: [(Loops, Fault<'_>); 6] = [
        (
            vec![vec![[0.0, 0.0], [8.0, 8.0], [8.0, 0.0], [0.0, 8.0]]],
            ("the segments from point 1 to point 2 of “loop 0” and from point 3 to point 4 of “loop 0” meet", vec![[0, 0], [0, 2]]),
        ),
        (
            vec![vec![[0.0, 0.0], [8.0, 0.0], [8.0, 8.0], [8.0, 4.0]]],
            (
                "the segments from point 2 to point 3 of “loop 0” and from point 3 to point 4 of “loop 0” lie on each other",
                vec![[0, 1], [0, 2]],
            ),
        ),
        (
            vec![square(8.0), hole(7.0, 1.0, 2.0)],
            (
                "the segments from point 2 to point 3 of “loop 0” and from point 2 to point 3 of “loop 1”, of two loops, meet",
                vec![[0, 1], [1, 1]],
            ),
        ),
        (vec![square(8.0), hole(9.0, 1.0, 2.0)], ("“loop 1” isn't inside the outer outline", all(1))),
        (vec![square(8.0), hole(1.0, 1.0, 4.0), hole(2.0, 2.0, 1.0)], ("“loop 2” lies in “loop 1”", all(2))),
        (vec![square(8.0), hole(2.0, 2.0, 1.0), hole(1.0, 1.0, 4.0)], ("“loop 1” lies in “loop 2”", all(1))),
    ];
    for (loops, (words, segments)) in cases {
        assert_eq!(is_sound(&drawing(&loops).outline()), Ok(false));
        for path in ["/check", "/pave"] {
            let answer = server.value(path, &body(&loops, &[("size", Value::Number(1.0))]));
            assert_eq!((part(&answer, "refusal"), part(&answer, "sound")), (&Value::Null, &Value::Bool(false)));
            let (fault, more) = list(&answer, "faults").split_first().expect("a fault");
            let more: Vec<&str> = more.iter().map(|fault| text(fault, "words")).collect();
            assert_eq!(more, if words.ends_with("lie on each other") { vec![meet] } else { vec![] });
            assert_eq!(text(fault, "words"), words);
            let spot = |spot: &Value| spot.as_point().expect("a segment").map(|x| x as usize);
            assert_eq!(list(fault, "segments").iter().map(spot).collect::<Vec<_>>(), segments);
            let whole = answer.get("mesh").map(|mesh| part(mesh, "whole").clone());
            assert_eq!(whole, (path == "/pave").then_some(Value::Bool(false)));
        }
    }
    let star =
        (0..25).map(|k| f64::from(k) * 12.0 * std::f64::consts::TAU / 25.0).map(|angle| [angle.cos(), angle.sin()]);
    let answer = server.value("/check", &body(&vec![star.collect()], &[("size", Value::Null)]));
    let faults = list(&answer, "faults");
    assert_eq!(
        (faults.len(), text(&faults[5], "words"), list(&faults[5], "segments")),
        (6, "more is unsound", &[][..])
    );
}

#[test]
fn the_nearest_edge() {
    let server = Server::start();
    let mut rng = Rng(3);
    for round in 0..150 {
        let loops = if round % 2 == 0 { with_hole() } else { vec![vec![[0.0, 0.0], [9.0, 1.0], [4.0, 7.5]]] };
        let (drawing, at) = (drawing(&loops), [4.0 + 6.0 * rng.unit(), 4.0 + 6.0 * rng.unit()]);
        let outline: Outline<'_> = drawing.outline();
        let expected = nearest_segment(&outline, at).unwrap();
        let answer = server.value("/nearest", &body(&loops, &[("at", Value::point(at))]));
        let count = |name: &str| part(&answer, name).as_count(99);
        assert_eq!([count("loop"), count("place")], [Some(expected.loop_index), Some(expected.segment_index)]);
        let ends: Vec<[u64; 2]> = list(&answer, "ends").iter().map(bits).collect();
        assert_eq!(ends, [expected.a, expected.b].map(|end| end.map(f64::to_bits)));
        assert_eq!(part(&answer, "distance"), &Value::Number(expected.distance));
        assert_eq!(part(&answer, "inside"), &Value::Bool(contains(&outline, at).unwrap()));
    }
}

#[test]
fn crosses_of_a_field() {
    let server = Server::start();
    let (loops, size) = (with_hole(), 0.7);
    let mut rng = Rng(1);
    let mut points: Vec<[f64; 2]> = (0..300).map(|_| [4.0 + 6.0 * rng.unit(), 4.0 + 6.0 * rng.unit()]).collect();
    points.push([2_000.0, 0.0]);
    let asked = |points: &[[f64; 2]]| {
        let points = Value::list(points.iter().map(|point| Value::point(*point)));
        body(&loops, &[("size", Value::Number(size)), ("points", points)])
    };
    let answer = server.value("/crosses", &asked(&points));
    let drawing = drawing(&loops);
    let outline = drawing.outline();
    let (mut values, mut marks, mut blocks) = (vec![0.0; 500_000], vec![0; 250_000], vec![0; 99]);
    let record = field(&outline, size, 400, &mut values, &mut marks, &mut blocks).unwrap();
    // The field is that which a run makes.
    let mut memory = Memory::new(Places::for_outline(&outline, size, 1).unwrap()).unwrap();
    let mesh = memory.pave(&outline, &Settings { size, ..SETTINGS }).unwrap();
    assert_eq!((mesh.record(), mesh.field().0), (record, &values[..2 * record.nodes()]));
    let mut seen = [0, 0];
    for (point, found) in points.iter().zip(list(&answer, "directions")) {
        let inside = contains(&outline, *point) == Ok(true);
        let at = || direction(&record, mesh.field().0, mesh.field().1, *point, [1.0, 0.0]).unwrap();
        assert_eq!(found.as_point().map(|at| at.map(f64::to_bits)), inside.then(|| at().map(f64::to_bits)));
        seen[usize::from(inside)] += 1;
    }
    assert!(list(&answer, "directions").len() == 301 && seen[0] > 20 && seen[1] > 20, "{seen:?}");
    let most = server.value("/crosses", &asked(&vec![[1.0, 1.0]; 4_096]));
    assert_eq!(list(&most, "directions").len(), 4_096);
    let said = server.post("/crosses", asked(&vec![[1.0, 1.0]; 4_097]).to_string().as_bytes());
    assert_eq!((said.status, said.error().as_str()), (400, "points has more than 4096 values"));
}
