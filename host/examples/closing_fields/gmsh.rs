//! The same field meshed by Gmsh, to compare times.

use std::fmt::Write;
use std::process::{self, Command};
use std::{env, fs};

use sitjorbe::raw::Outline;

/// How many quads Gmsh makes of a field, and the processor's seconds that it says; none where it isn't installed or ends in vain.
pub fn meshed(outline: &Outline<'_>, size: f64) -> Option<(usize, f64)> {
    let [geo, msh] = ["geo", "msh"].map(|kind| env::temp_dir().join(format!("closing-{}.{kind}", process::id())));
    fs::write(&geo, drawn(outline, size)).ok()?;
    let set = ["Mesh.Algorithm=6", "Mesh.RecombineAll=1", "Mesh.RecombinationAlgorithm=1"];
    let set = set.iter().flat_map(|word| word.split_once('=')).flat_map(|(name, value)| ["-setnumber", name, value]);
    let mut command = Command::new("gmsh");
    command.args(["-2", "-nt", "1", "-format", "msh2", "-o"]).arg(&msh).args(set).arg(&geo);
    let said = String::from_utf8(command.output().ok()?.stdout).ok()?;
    let times = said.lines().filter(|line| line.contains("Done meshing")).filter_map(|line| {
        let (_, after) = line.split_once("CPU ")?;
        after.split('s').next()?.parse::<f64>().ok()
    });
    let quads = fs::read_to_string(&msh).ok()?.lines().filter(|line| line.split(' ').nth(1) == Some("3")).count();
    let time = times.sum();
    [geo, msh].iter().for_each(|path| _ = fs::remove_file(path));
    (quads > 0).then_some((quads, time))
}

/// The field in Gmsh's own language.
fn drawn(outline: &Outline<'_>, size: f64) -> String {
    let mut loops = vec![outline.outer];
    let mut rest = outline.holes;
    for &length in outline.hole_lengths {
        let (hole, after) = rest.split_at(2 * length);
        loops.push(hole);
        rest = after;
    }
    let (mut text, mut first) = (String::new(), 1);
    for (k, points) in (1..).zip(&loops) {
        let count = points.len() / 2;
        for (n, point) in (first..).zip(points.chunks_exact(2)) {
            _ = writeln!(text, "Point({n}) = {{{}, {}, 0, {size}}};", point[0], point[1]);
        }
        for n in first..first + count {
            let next = if n + 1 == first + count { first } else { n + 1 };
            _ = writeln!(text, "Line({n}) = {{{n}, {next}}};");
        }
        let lines: Vec<String> = (first..first + count).map(|n| n.to_string()).collect();
        _ = writeln!(text, "Curve Loop({k}) = {{{}}};", lines.join(", "));
        first += count;
    }
    let loops: Vec<String> = (1..=loops.len()).map(|k| k.to_string()).collect();
    _ = writeln!(text, "Plane Surface(1) = {{{}}};\nMesh.MeshSizeMax = {size};", loops.join(", "));
    text
}
