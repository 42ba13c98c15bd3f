//! Meshes for other programs: VTK's and Gmsh's files, and tables.

use std::fmt::Write;

use crate::bowl;
use crate::closed::kind_word;
use crate::csv::Field;
use crate::figures::Figures;
use crate::files::Failure;
use crate::hill::{decibels, Hill};
use crate::identity;
use crate::mesh_json;
use crate::report;
use crate::run::Paved;
use crate::svg::{self, Look};

/// What a file can hold.
#[derive(Clone, Copy, Debug, PartialEq, Eq)]
pub enum Format {
    Svg,
    Vtk,
    Msh,
    Json,
    /// A row a node.
    Nodes,
    /// A row a quad.
    Quads,
    /// A row a node, in steps of the bowl.
    Steps,
    /// A report of one page.
    Report,
}

impl Format {
    /// By the ending of a file's name.
    pub fn of_name(name: &str) -> Option<Format> {
        let name = name.to_ascii_lowercase();
        let endings = [
            (".quads.csv", Format::Quads),
            (".steps.csv", Format::Steps),
            (".csv", Format::Nodes),
            (".svg", Format::Svg),
            (".vtk", Format::Vtk),
            (".msh", Format::Msh),
            (".json", Format::Json),
            (".html", Format::Report),
        ];
        endings.into_iter().find(|(ending, _)| name.ends_with(ending)).map(|(_, format)| format)
    }

    /// The file's text. Steps are refused where the bowl can't show a quad.
    pub fn text(self, field: &Field, paved: &Paved, figures: &Figures, look: &Look) -> Result<String, Failure> {
        Ok(match self {
            Format::Svg => svg::draw(field, paved, figures, look),
            Format::Vtk => vtk(field, paved, look),
            Format::Msh => msh(field, paved),
            Format::Json => mesh_json::write(field, paved, figures, look),
            Format::Nodes => node_table(field, paved, look.hill.as_ref()),
            Format::Quads => quad_table(field, paved),
            Format::Steps => bowl::table(paved)?,
            Format::Report => report::page(field, paved, figures, look),
        })
    }
}

/// A line of text, whatever a name holds.
fn one_line(words: &str, most: usize) -> String {
    words.chars().filter(|c| !c.is_control()).take(most).collect()
}

/// The number of a quad's loop; those of the closing have the number after the last.
fn origin(field: &Field, paved: &Paved, quad: usize) -> usize {
    paved.loop_of(quad).unwrap_or(field.names.len())
}

/// The loops' names, and after them the closing's.
fn names(field: &Field) -> Vec<String> {
    field.names.iter().cloned().chain(["closing".to_string()]).collect()
}

/// A legacy VTK file, as ParaView and meshio open it: cells and points have the number of their loop.
pub fn vtk(field: &Field, paved: &Paved, look: &Look) -> String {
    let mut text = format!(
        "# vtk DataFile Version 3.0\n{}: {}\nASCII\nDATASET UNSTRUCTURED_GRID\n",
        identity::line(paved),
        one_line(&look.title, 150)
    );
    let (nodes, quads) = (paved.nodes.len(), paved.quads.len());
    let mut line = |words: String| writeln!(text, "{words}").expect("a string takes every line");
    line(format!("POINTS {nodes} double"));
    paved.nodes.iter().for_each(|[x, y]| line(format!("{x:?} {y:?} 0.0")));
    line(format!("CELLS {quads} {}", 5 * quads));
    paved.quads.iter().for_each(|[a, b, c, d]| line(format!("4 {a} {b} {c} {d}")));
    line(format!("CELL_TYPES {quads}"));
    paved.quads.iter().for_each(|_| line("9".to_string()));
    line(format!("CELL_DATA {quads}\nSCALARS loop int 1\nLOOKUP_TABLE default"));
    (0..quads).for_each(|quad| line(origin(field, paved, quad).to_string()));
    if paved.is_closed() {
        line("SCALARS kind int 1\nLOOKUP_TABLE default".to_string());
        (0..quads).for_each(|quad| line((paved.kind(quad) as usize).to_string()));
    }
    line(format!("POINT_DATA {nodes}\nSCALARS loop int 1\nLOOKUP_TABLE default"));
    let most = field.names.len();
    paved.origins.iter().for_each(|origin| line(usize::from(*origin).min(most).to_string()));
    text
}

/// Gmsh's format 2.2, which Gmsh and meshio open: the quads of each loop are a physical group that has the loop's name.
pub fn msh(field: &Field, paved: &Paved) -> String {
    let mut text = String::from("$MeshFormat\n2.2 0 8\n$EndMeshFormat\n");
    text += &format!("$Comments\n{}\n$EndComments\n", identity::line(paved));
    let mut line = |words: String| writeln!(text, "{words}").expect("a string takes every line");
    let (names, count) = (names(field), field.names.len());
    let is_used = |k: &usize| paved.quads_of(Some(*k).filter(|k| *k < count)).next().is_some();
    let used: Vec<usize> = (0..names.len()).filter(is_used).collect();
    line(format!("$PhysicalNames\n{}", used.len()));
    for k in used {
        line(format!("2 {} \"{}\"", k + 1, one_line(&names[k], 100).replace('"', "'")));
    }
    line(format!("$EndPhysicalNames\n$Nodes\n{}", paved.nodes.len()));
    (1..).zip(&paved.nodes).for_each(|(id, [x, y])| line(format!("{id} {x:?} {y:?} 0.0")));
    line(format!("$EndNodes\n$Elements\n{}", paved.quads.len()));
    for (place, quad) in paved.quads.iter().enumerate() {
        let (group, [a, b, c, d]) = (origin(field, paved, place) + 1, quad.map(|id| id + 1));
        line(format!("{} 3 2 {group} {group} {a} {b} {c} {d}", place + 1));
    }
    line("$EndElements".to_string());
    text
}

/// A word of a table, between quotes where it has to be. A sheet would take one that begins with a sign for a formula.
fn cell(words: &str) -> String {
    let words = one_line(words, 200);
    let words = if words.starts_with(['=', '+', '-', '@']) { format!("'{words}") } else { words };
    if words.contains([',', '"', ';']) {
        format!("\"{}\"", words.replace('"', "\"\""))
    } else {
        words
    }
}

/// Where each node is, as a point and by eccentricity and meridian, and its threshold: empty where none stands, to be filled in.
pub fn node_table(field: &Field, paved: &Paved, hill: Option<&Hill>) -> String {
    let mut text = format!("# {}\nnode,x,y,threshold_dB,eccentricity,meridian,loop\n", identity::line(paved));
    let names: Vec<String> = names(field).iter().map(|name| cell(name)).collect();
    for (id, ([x, y], origin)) in paved.nodes.iter().zip(&paved.origins).enumerate() {
        let meridian = y.atan2(*x).to_degrees().rem_euclid(360.0);
        let name = &names[usize::from(*origin).min(field.names.len())];
        let threshold = hill.and_then(|hill| hill.thresholds[id]).map_or(String::new(), decibels);
        writeln!(text, "{id},{x:?},{y:?},{threshold},{:.3},{meridian:.2},{name}", x.hypot(*y))
            .expect("a string takes every line");
    }
    text
}

/// Each quad's nodes, in the order that runs round it.
pub fn quad_table(field: &Field, paved: &Paved) -> String {
    let mut text = format!("# {}\nquad,node1,node2,node3,node4,loop,kind\n", identity::line(paved));
    let names: Vec<String> = names(field).iter().map(|name| cell(name)).collect();
    for (place, quad) in paved.quads.iter().enumerate() {
        let [a, b, c, d] = quad;
        let (name, kind) = (&names[origin(field, paved, place)], kind_word(paved.kind(place)));
        writeln!(text, "{place},{a},{b},{c},{d},{name},{kind}").expect("a string takes every line");
    }
    text
}
