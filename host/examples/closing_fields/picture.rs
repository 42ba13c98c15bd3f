//! A closed mesh as a picture.

use sitjorbe::closing::{Closing, Kind};
use sitjorbe::raw::Mesh;

/// A quad and its colour.
type Coloured = ([u32; 4], &'static str);

/// The mesh as a picture: unmoved quads blue, bent ones green, new ones yellow; red where it stays open.
pub fn picture(mesh: &Mesh<'_>, closing: &Closing) -> String {
    let paved: Vec<[f64; 2]> = mesh.nodes().collect();
    let (nodes, quads): (&[[f64; 2]], Vec<Coloured>) = match closing {
        Closing::Closed(closed) => (
            closed.nodes(),
            closed
                .quads()
                .iter()
                .zip(closed.kinds())
                .map(|(quad, kind)| {
                    (
                        *quad,
                        match kind {
                            Kind::Kept => "#bcd4ec",
                            Kind::Bent => "#c4e3c0",
                            Kind::New => "#f6e7a8",
                        },
                    )
                })
                .collect(),
        ),
        Closing::Open(_) => (&paved, mesh.quads().map(|quad| (quad, "#eeb4b4")).collect()),
    };
    let fold = |axis: usize, pick: fn(f64, f64) -> f64| nodes.iter().map(|p| p[axis]).reduce(pick).unwrap_or(0.0);
    let (low, high) = ([fold(0, f64::min), fold(1, f64::min)], [fold(0, f64::max), fold(1, f64::max)]);
    let scale = 1_000.0 / (high[0] - low[0]).max(high[1] - low[1]);
    let mut text = String::from("<svg xmlns=\"http://www.w3.org/2000/svg\" viewBox=\"-5 -5 1010 1010\"><rect x=\"-5\" y=\"-5\" width=\"1010\" height=\"1010\" fill=\"white\"/>\n");
    for (quad, fill) in quads {
        let place = |id: u32| {
            let [x, y] = nodes[id as usize];
            format!("{:.1},{:.1}", scale * (x - low[0]), scale * (high[1] - y))
        };
        let corners = quad.map(place).join(" ");
        text.push_str(&format!("<polygon points=\"{corners}\" fill=\"{fill}\" stroke=\"#444\" stroke-width=\"1\"/>\n"));
    }
    text.push_str("</svg>\n");
    text
}
