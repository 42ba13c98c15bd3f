//! Patched against plain, and passes taken one by one against one call of `advance`.

use std::collections::BTreeMap;
use std::{fmt, io};

use crate::generate::Case;
use crate::terms::{Drawing, Lent, Refusal, Run, Settings};
use crate::{file, patched, plain};

/// Coordinates and values that differ by more than this aren't the same number computed twice.
const LAST_BITS: f64 = 1e-9;

/// An outline to pave.
struct Question {
    drawing: Drawing,
    settings: Settings,
    lent: Lent,
}

impl Question {
    /// A case's outline, if it is one.
    fn of(case: &Case) -> Option<Question> {
        match case {
            Case::Pave { drawing, settings, lent } => {
                Some(Question { drawing: drawing.clone(), settings: *settings, lent: *lent })
            }
            Case::File { bytes } => {
                file::read(bytes).ok().map(|(drawing, settings)| Question { drawing, settings, lent: Lent::PROGRAM })
            }
            _ => None,
        }
    }
}

/// What a comparison of the two builds found.
#[derive(Debug, Default)]
pub struct Differences {
    /// Outlines and files in good order, those refused among them.
    pub cases: usize,
    /// Refused alike by both builds.
    pub refused: usize,
    /// Refused differently.
    pub refused_apart: usize,
    /// The same listing, bit for bit.
    pub same: usize,
    /// The same quads, front, loops and end, and nodes that differ in their last bits.
    pub last_bits: usize,
    /// The greatest difference of a coordinate among these.
    pub farthest: f64,
    /// Nodes elsewhere, other quads, another front or another end: by the case's place.
    pub apart: Vec<usize>,
    /// Of these: by cause, in the order of `Cause`.
    pub causes: [usize; 3],
    /// Of these: with as many quads.
    pub as_many_quads: usize,
    /// Quads placed by the patched and by the plain build.
    pub quads: [usize; 2],
    /// Runs that are whole, patched and plain.
    pub whole: [usize; 2],
}

/// Why two runs part, seen at the last front that they have in common.
#[derive(Clone, Copy)]
enum Cause {
    /// At an end of a front edge two branches of the cross are equally near the normal, and each build takes another.
    Branch,
    /// The fields differ by more than their last bits: sums of neighbours that cancel in one build leave a residue in the other.
    Field,
    /// Neither: a distance, sine or cross product lies on its bound.
    Bound,
}

impl fmt::Display for Differences {
    fn fmt(&self, f: &mut fmt::Formatter<'_>) -> fmt::Result {
        let [quads, plain_quads] = self.quads;
        let [whole, plain_whole] = self.whole;
        let [branch, field, bound] = self.causes;
        let (apart, as_many) = (self.apart.len(), self.as_many_quads);
        writeln!(f, "cases {}: refused by both alike {}, apart {}", self.cases, self.refused, self.refused_apart)?;
        writeln!(f, "same listing {}", self.same)?;
        writeln!(f, "last bits of nodes differ {}, by at most {:e}", self.last_bits, self.farthest)?;
        writeln!(
            f,
            "apart {apart}: for a branch {branch}, the field {field}, a bound {bound}; as many quads {as_many}"
        )?;
        writeln!(f, "quads: patched {quads}, plain {plain_quads}; whole: patched {whole}, plain {plain_whole}")?;
        if !self.apart.is_empty() {
            writeln!(f, "apart at places {:?}", self.apart)?;
        }
        Ok(())
    }
}

/// Runs both builds on every case and counts what differs.
pub fn builds(cases: &[Case]) -> Differences {
    let mut found = Differences::default();
    for (place, case) in cases.iter().enumerate() {
        if let Some(question) = Question::of(case) {
            found.count(place, &question);
        }
    }
    found
}

impl Differences {
    fn count(&mut self, place: usize, question: &Question) {
        let Question { drawing, settings, lent } = question;
        self.cases += 1;
        match [patched::pave, plain::pave].map(|pave| pave(drawing.outline(), *settings, lent)) {
            [Ok(run), Ok(other)] => self.count_runs(place, question, [&run, &other]),
            [Err(Refusal(number)), Err(Refusal(other))] if number == other => self.refused += 1,
            _ => self.refused_apart += 1,
        }
    }

    fn count_runs(&mut self, place: usize, question: &Question, runs: [&Run; 2]) {
        for (k, run) in runs.into_iter().enumerate() {
            self.quads[k] += run.quads.len();
            self.whole[k] += usize::from(run.whole);
        }
        let [run, other] = runs;
        let mesh = |run: &Run| (run.quads.clone(), run.front.clone(), run.loops.clone(), run.end);
        let farthest = farthest(&run.nodes, &other.nodes);
        if run.to_string() == other.to_string() {
            self.same += 1;
        } else if mesh(run) == mesh(other) && farthest <= LAST_BITS {
            self.last_bits += 1;
            self.farthest = self.farthest.max(farthest);
        } else {
            self.apart.push(place);
            self.causes[cause(question, runs) as usize] += 1;
            self.as_many_quads += usize::from(run.quads.len() == other.quads.len());
        }
    }
}

/// The greatest difference of a coordinate between two lists, as far as both go.
fn farthest(list: &[[f64; 2]], other: &[[f64; 2]]) -> f64 {
    let pairs = list.iter().flatten().zip(other.iter().flatten());
    pairs.fold(0.0, |most, (x, y)| most.max((x - y).abs()))
}

fn cause(question: &Question, [run, other]: [&Run; 2]) -> Cause {
    let Question { drawing, settings: Settings { size, sweeps, .. }, lent } = question;
    let (outline, room) = (drawing.outline(), lent.field_nodes);
    let field = patched::Field::new(outline, *size, *sweeps, room).expect("paved before");
    let twin = plain::Field::new(outline, *size, *sweeps, room).expect("paved before");
    let front = common_front(patched::front(outline, *size, lent).expect("paved before"), [run, other]);
    let branch = |p: [f64; 2], normal: [f64; 2]| match (field.direction(p, normal), twin.direction(p, normal)) {
        (Ok(d), Ok(e)) => farthest(&[d], &[e]) > 0.5 && (dot(d, normal) - dot(e, normal)).abs() <= LAST_BITS,
        _ => false,
    };
    let parts = |(&u, &v): (&usize, &usize)| {
        let (p, q) = (run.nodes[u], run.nodes[v]);
        let normal = left_normal(p, q);
        branch(p, normal) || branch(q, normal)
    };
    if front.iter().any(parts) {
        Cause::Branch
    } else if farthest(field.values(), twin.values()) > LAST_BITS {
        Cause::Field
    } else {
        Cause::Bound
    }
}

fn dot(u: [f64; 2], v: [f64; 2]) -> f64 {
    u[0] * v[0] + u[1] * v[1]
}

fn left_normal(p: [f64; 2], q: [f64; 2]) -> [f64; 2] {
    let (dx, dy) = (q[0] - p[0], q[1] - p[1]);
    let length = dot([dx, dy], [dx, dy]).sqrt();
    [-dy / length, dx / length]
}

/// The front after the quads that both runs begin with, by the exact book.
fn common_front(start: Run, [run, other]: [&Run; 2]) -> BTreeMap<usize, usize> {
    let mut next: BTreeMap<usize, usize> = start.front.into_iter().collect();
    let near = |&id: &usize| farthest(&[run.nodes[id]], &[other.nodes[id]]) <= LAST_BITS;
    let pairs = run.quads.iter().zip(&other.quads);
    for (&[a, b, d, c], _) in pairs.take_while(|(quad, twin)| quad == twin && quad.iter().all(near)) {
        next.remove(&a);
        if next.get(&c) == Some(&a) {
            next.remove(&c);
        } else {
            next.insert(a, c);
        }
        if next.get(&b) == Some(&d) {
            next.remove(&b);
        } else {
            next.insert(d, b);
        }
        next.insert(c, d);
    }
    next
}

/// Holds each run, taken pass by pass, against one call of `advance`; answers how many ran.
pub fn steps(cases: &[Case]) -> io::Result<usize> {
    const ROOM: Lent = Lent { field_nodes: 40_000, nodes: 1_000_000, quads: 1_000_000, edges: 3_000_000 };
    let mut runs = 0;
    for Question { drawing, settings, .. } in cases.iter().filter_map(Question::of) {
        let Ok(run) = patched::pave(drawing.outline(), settings, &ROOM) else {
            continue;
        };
        let whole = patched::pave_in_one_call(drawing.outline(), settings).map(|other| Run { end: run.end, ..other });
        if whole.as_ref() != Ok(&run) {
            return Err(io::Error::other("a run differs, pass by pass, from one call of advance"));
        }
        runs += 1;
    }
    Ok(runs)
}
