//! Dense outlines: why nothing fits, what to do, and `--thin`.

#[path = "common/called.rs"]
#[allow(dead_code)]
mod called;

use std::f64::consts::TAU;

use called::{call, check_xml, folder, inside, read, SQUARE};

/// Points evenly on an ellipse, 25 by 20 degrees.
fn ellipse(points: u32) -> String {
    let at = |k: u32| (f64::from(k) * TAU / f64::from(points)).sin_cos();
    (0..points).map(at).map(|(y, x)| format!("{},{}\n", 25.0 * x, 20.0 * y)).collect()
}

fn share(said: &str) -> f64 {
    let from = said.find("\"share\":").expect("a share") + 8;
    said[from..].split(',').next().expect("a word").parse().expect("a number")
}

/// The share of an ellipse that is paved at size 3, and what is said.
fn paved(points: u32, more: &[&str]) -> (f64, String) {
    let words = [&["pave", "-", "--size", "3"], more].concat();
    let figures = call(&[&words[..], &["--json"]].concat(), ellipse(points).as_bytes());
    let said = call(&words, ellipse(points).as_bytes());
    assert_eq!(said.status, 0, "{}", said.err);
    (share(&figures.out), said.out)
}

#[test]
fn a_dense_outline_has_its_reason_and_is_thinned_when_asked() {
    let (none, said) = paved(1_000, &[]);
    assert_eq!(none, 0.0);
    assert!(said.contains("1,000 points 0.142° apart: no quad fits at 3°; thin them (--thin)."), "{said}");
    assert!(!said.contains("Smaller quads") && !said.contains("larger size"), "{said}");
    let (share, said) = paved(1_000, &["--thin"]);
    assert!(share > 0.6, "{share}");
    let line = said.lines().find(|line| line.contains("Thinned to 3°: ")).expect("it is said");
    assert!(line.contains(" of 1,000 points stay; the outline moves by at most 0."), "{line}");
    let (finer, _) = paved(1_000, &["--thin", "2.5"]);
    assert!(finer > 0.4, "{finer}");
    assert_eq!(paved(1_000, &["--thin=3"]), paved(1_000, &["--thin"]));
}

/// What stays was drawn, corners stay, and what is said of the distance is so.
#[test]
fn what_thinning_keeps() {
    let folder = folder("thinned");
    let out = inside(&folder, "a.json");
    let square: String = (0..400)
        .map(|k| (k / 100, f64::from(k % 100) / 10.0))
        .map(|(side, way)| [(way, 0.0), (10.0, way), (10.0 - way, 10.0), (0.0, 10.0 - way)][side as usize])
        .map(|(x, y)| format!("{x},{y}\n"))
        .collect();
    let said = call(&["pave", "-", "--size", "2", "--thin", "-o", &out], square.as_bytes());
    assert_eq!(said.status, 0, "{}", said.err);
    assert!(said.out.contains("All of the field is paved.\n  Thinned to 2°: 20 of 400 points stay; the outline moves by at most less than 0.001°."), "{}", said.out);
    let mesh = read(&out);
    assert!(mesh.contains("\n\"loops\":[{\"name\":\"outline\",\"points\":[[0,0],[2,0],[4,0],"), "{mesh}");
    let drawn = mesh.lines().find(|line| line.starts_with("\"drawn\":")).expect("the original is kept");
    assert_eq!(drawn.matches("],[").count(), 399);
    let picture = call(&["pave", "-", "--size", "3", "--thin", "-o", "-"], ellipse(200).as_bytes()).out;
    check_xml(&picture);
    assert!(
        picture.contains("class=\"drawn\"")
            && picture.contains(">as drawn<")
            && picture.contains("points stay; the outline moves")
    );
}

#[test]
fn what_isnt_dense_stays_as_it_is() {
    let plain = call(&["pave", "-", "--size", "2", "-o", "-", "--as", "json"], SQUARE.as_bytes());
    let thinned = call(&["pave", "-", "--size", "2", "--thin", "-o", "-", "--as", "json"], SQUARE.as_bytes());
    assert_eq!(plain.out, thinned.out);
    assert!(thinned.err.contains("Thinned to 2°: all 8 points stay."), "{}", thinned.err);
    let three = call(&["pave", "-", "--size", "50", "--thin"], b"0,0\n1,0\n1,1\n");
    assert!(three.status == 0 && three.out.contains("all 3 points stay"), "{}", three.out);
    let most: String = ellipse(9_000);
    let said = call(&["pave", "-", "--size", "3", "--thin"], most.as_bytes());
    assert!(said.status == 0 && said.out.contains(" of 9,000 points stay"), "{}{}", said.out, said.err);
    // Points that fold back, repeat and cross are thinned without a panic.
    for text in ["0,0\n0,0\n0,0\n0,0\n", "0,0\n1,0\n0,0\n1,0\n0,0.001\n", "0,0\n1e-300,0\n0,1e-300\n5,5\n"] {
        let said = call(&["pave", "-", "--size", "1", "--thin", "1e-9"], text.as_bytes());
        assert!([0, 1].contains(&said.status), "{text:?}: {}", said.err);
    }
}

/// One piece of advice at most, and none beside what would belie it.
#[test]
fn advice_is_one_and_fits() {
    let advice = |size: &str, text: &str| {
        let said = call(&["pave", "-", "--size", size], text.as_bytes());
        assert_eq!(said.status, 0, "{}", said.err);
        (said.out.matches("Smaller quads").count(), said.out.matches("no quad fits").count(), said.out)
    };
    let (finer, none, said) = advice("2", SQUARE);
    assert_eq!((finer, none), (1, 0), "{said}");
    assert!(said.trim_end().ends_with("set a smaller --size, or let sizes be tried (--best)."), "{said}");
    let (finer, none, said) = advice("30", SQUARE);
    assert_eq!((finer, none), (0, 1), "{said}");
    assert!(said.contains("The field is 20° wide and 20° high: no quad fits at 30°; set a smaller --size"), "{said}");
    let (finer, none, _) = advice("1", "0,0\n4,4\n4,0\n0,4\n");
    assert_eq!((finer, none), (0, 0), "an unsound outline");
    let (finer, none, said) = advice("2", "0,0\n4,0\n4,4\n0,4\n");
    assert_eq!((finer, none), (0, 0), "{said}");
    let passes = call(&["pave", "-", "--size", "2", "--passes", "1"], SQUARE.as_bytes()).out;
    assert!(passes.contains("every pass allowed was used") && !passes.contains("Smaller quads"), "{passes}");
}
