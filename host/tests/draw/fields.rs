//! Whole fields saved and opened, the field that the command is called with, and thinned outlines.

use std::f64::consts::TAU;
use std::fs;

use crate::client::Server;
use crate::json::Value;
use crate::{body, list, part, text, with_hole, Loops};

/// A circle of so many points.
fn circle(points: usize, radius: f64) -> Loops {
    let at = |k: usize| {
        let angle = TAU * k as f64 / points as f64;
        [radius * angle.cos(), radius * angle.sin()]
    };
    vec![(0..points).map(at).collect()]
}

/// What is saved is read back: points bit by bit, names, eye, size, title, and the digest of the mesh that is paved.
#[test]
fn a_field_is_saved_and_opened() {
    let server = Server::start();
    let more = [("size", Value::Number(1.3)), ("eye", Value::text("left")), ("title", Value::text("Anna “2”"))];
    let asked = body(&with_hole(), &more);
    let saved = server.value("/save", &asked);
    let opened = server.value("/read", &Value::map([("text", part(&saved, "text").clone())]));
    for name in ["loops", "size", "eye", "title"] {
        assert_eq!(opened.get(name), asked.get(name), "{name}");
    }
    let mesh = server.value("/pave", &asked);
    assert_eq!(opened.get("digest"), part(&mesh, "mesh").get("digest"));
    assert_eq!(text(&opened, "digest").len(), 16);
    // One that can't be paved is saved too.
    let asked = body(&vec![vec![[0.1, 0.2]]], &more);
    let saved = server.value("/save", &asked);
    let opened = server.value("/read", &Value::map([("text", part(&saved, "text").clone())]));
    assert_eq!((opened.get("loops"), opened.get("digest")), (asked.get("loops"), Some(&Value::Null)));
}

#[test]
fn the_command_takes_a_file() {
    let server = Server::start();
    let asked =
        body(&with_hole(), &[("size", Value::Number(1.3)), ("eye", Value::text("left")), ("title", Value::text("T"))]);
    assert_eq!(part(&server.value("/first", &Value::map([])), "field"), &Value::Null);
    let saved = server.value("/save", &asked);
    let file = std::env::temp_dir().join(format!("sitjorbe-draw-{}.json", std::process::id()));
    fs::write(&file, text(&saved, "text")).expect("a file");
    let begun = Server::with(&[file.to_str().expect("text")]);
    let answer = begun.value("/first", &Value::map([]));
    for name in ["loops", "size", "eye", "title"] {
        assert_eq!(part(&answer, "field").get(name), asked.get(name), "{name}");
    }
    fs::remove_file(&file).expect("it is there");
}

/// A dense outline is told to be one, and thinned only where that is asked for.
#[test]
fn thinning_says_how_many_points_stay_and_how_far_the_outline_moves() {
    let server = Server::start();
    let asked = body(&circle(1_000, 20.0), &[("size", Value::Number(3.6))]);
    let mesh = server.value("/pave", &asked);
    assert_eq!(part(part(&mesh, "mesh"), "is_dense"), &Value::Bool(true));
    assert!(text(part(&mesh, "mesh"), "advice").starts_with("1,000 points 0.126° apart: no quad fits at 3.6°"));
    let thinned = server.value("/thin", &asked);
    assert_eq!(part(&thinned, "drawn"), &Value::count(1_000));
    let points = list(&list(&thinned, "loops")[0], "points");
    assert_eq!(part(&thinned, "stay"), &Value::count(points.len()));
    let moved = part(&thinned, "moved").as_number().expect("degrees");
    assert!((25..50).contains(&points.len()) && moved > 0.0 && moved < 0.2, "{} {moved}", points.len());
    let drawn = list(&list(&asked, "loops")[0], "points");
    assert!(points.iter().all(|point| drawn.contains(point)), "what stays was drawn");
    let words = text(&thinned, "words");
    assert!(words.contains(&format!("{} of 1,000 points stay", points.len())), "{words}");
    let size = [("size", Value::Number(3.6))];
    let again = Value::Map(
        [("loops".to_string(), part(&thinned, "loops").clone())]
            .into_iter()
            .chain(size.map(|(name, value)| (name.to_string(), value)))
            .collect(),
    );
    let share = |mesh: &Value| part(part(part(mesh, "mesh"), "figures"), "share").as_number().expect("a share");
    assert!(share(&mesh) == 0.0 && share(&server.value("/pave", &again)) > 0.25);
}

#[test]
fn refusals_of_thinning_are_said() {
    let server = Server::start();
    let asked = body(&vec![vec![[0.0, 0.0], [1.0, 0.0]]], &[("size", Value::Number(1.0))]);
    let answer = server.value("/thin", &asked);
    assert_eq!(part(part(&answer, "refusal"), "number"), &Value::count(2));
}
