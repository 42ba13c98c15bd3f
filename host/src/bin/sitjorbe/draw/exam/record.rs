//! One exam: a mesh that stays, thresholds that come and go, and all that was done. Whatever is counted, refused or estimated is asked of the library's exam.

use sitjorbe::raw::{LentMesh, Results, SharedResults};
use sitjorbe::{Desk, MaskedReader, Reader, Refusal, OFF};

use crate::csv::Field;
use crate::run::Paved;
use crate::svg::Eye;

use super::patient::Patient;

/// No more is entered and taken back in one exam.
pub const MOST_EVENTS: usize = 200_000;

/// What was done at a node.
#[derive(Clone, Copy, Debug, PartialEq)]
pub struct Event {
    pub kind: Kind,
    pub node: u32,
    /// The thresholds before and after, in tenths of a decibel.
    pub before: Option<u32>,
    pub after: Option<u32>,
    /// Milliseconds since 1970, if the page gave any.
    pub time: Option<f64>,
}

#[derive(Clone, Copy, Debug, PartialEq, Eq)]
pub enum Kind {
    Entered,
    Withdrawn,
    Undone,
    /// By the simulated patient.
    Simulated,
    /// From a file.
    Loaded,
}

impl Kind {
    const ALL: [(Kind, &str); 5] = [
        (Kind::Entered, "entered"),
        (Kind::Withdrawn, "withdrawn"),
        (Kind::Undone, "undone"),
        (Kind::Simulated, "simulated"),
        (Kind::Loaded, "loaded"),
    ];

    pub fn name(self) -> &'static str {
        Kind::ALL.iter().find(|(kind, _)| *kind == self).map_or("", |(_, name)| name)
    }

    pub fn of_name(name: &str) -> Option<Kind> {
        Kind::ALL.iter().find(|(_, other)| *other == name).map(|(kind, _)| *kind)
    }
}

/// A mesh's lists as the library takes them.
#[derive(Clone, Debug)]
struct Lists {
    xs: Vec<f64>,
    ys: Vec<f64>,
    next: Vec<u32>,
    prev: Vec<u32>,
}

impl Lists {
    fn of(paved: &Paved) -> Lists {
        let (mut next, mut prev) = (vec![OFF; paved.nodes.len()], vec![OFF; paved.nodes.len()]);
        for ring in &paved.left {
            for (id, after) in ring.iter().zip(ring.iter().cycle().skip(1)) {
                (next[*id as usize], prev[*after as usize]) = (*after, *id);
            }
        }
        let (xs, ys) = paved.nodes.iter().map(|[x, y]| (*x, *y)).unzip();
        Lists { xs, ys, next, prev }
    }

    fn mesh<'a>(&'a self, paved: &'a Paved) -> LentMesh<'a> {
        LentMesh {
            nodes: self.xs.len() as u32,
            xs: &self.xs,
            ys: &self.ys,
            quad_count: paved.quads.len(),
            quads: paved.quads.as_flattened(),
            next: &self.next,
            prev: &self.prev,
            origins: &paved.origins,
        }
    }
}

/// An exam as it stands.
#[derive(Clone, Debug)]
pub struct Record {
    /// Which exam of the server it is.
    pub id: usize,
    pub title: String,
    pub eye: Option<Eye>,
    pub field: Field,
    pub paved: Paved,
    /// The sampled outline, on which nothing was placed.
    pub sampled: Vec<Vec<u32>>,
    lists: Lists,
    thresholds: Vec<u16>,
    count: u32,
    sum: u32,
    pub order: Vec<u32>,
    /// What the order is, in words.
    pub order_words: String,
    /// The patient by whom some threshold was answered, if it was a simulated one.
    pub simulated: Option<Patient>,
    pub events: Vec<Event>,
    /// What undo takes back: a node, and its threshold before.
    past: Vec<(u32, Option<u32>)>,
}

impl Record {
    /// Begins an exam: no threshold stands, and quads come as they were placed.
    pub fn begin(field: Field, paved: Paved, sampled: Vec<Vec<u32>>, title: String, eye: Option<Eye>) -> Record {
        let lists = Lists::of(&paved);
        let mut record = Record {
            id: 0,
            title,
            eye,
            field,
            sampled,
            thresholds: vec![0; paved.nodes.len()],
            count: 0,
            sum: 0,
            order: (0..paved.quads.len() as u32).collect(),
            order_words: "as placed".to_string(),
            simulated: None,
            events: vec![],
            past: vec![],
            lists,
            paved,
        };
        record.desk().begin();
        record
    }

    fn desk(&mut self) -> Desk<'_> {
        let Record { lists, paved, thresholds, count, sum, .. } = self;
        Desk::new(lists.mesh(paved), Results { thresholds, count, sum })
    }

    pub fn mesh(&self) -> LentMesh<'_> {
        self.lists.mesh(&self.paved)
    }

    fn shared(&self) -> SharedResults<'_> {
        SharedResults { thresholds: &self.thresholds, count: &self.count, sum: &self.sum }
    }

    pub fn reader(&self) -> Reader<'_> {
        Reader::new(self.mesh(), self.shared())
    }

    pub fn masked_reader(&self) -> MaskedReader<'_> {
        MaskedReader::new(self.mesh())
    }

    /// A node's threshold in tenths of a decibel, none where none stands.
    pub fn threshold(&self, node: u32) -> Option<u32> {
        self.reader().threshold(node).ok()
    }

    /// Every node's threshold.
    pub fn thresholds(&self) -> Vec<Option<u32>> {
        (0..self.paved.nodes.len() as u32).map(|node| self.threshold(node)).collect()
    }

    /// Enters a node's threshold, or replaces it; withdraws it where none is told. What the library refuses changes nothing.
    pub fn change(&mut self, kind: Kind, node: u32, after: Option<u32>, time: Option<f64>) -> Result<(), Refusal> {
        let before = self.threshold(node);
        match after {
            Some(tenths) => self.desk().enter(node, tenths)?,
            None => self.desk().withdraw(node)?,
        }
        self.events.push(Event { kind, node, before, after, time });
        if kind != Kind::Undone {
            self.past.push((node, before));
        }
        Ok(())
    }

    /// Takes the last change back; the node that it was at, none where there is nothing to take back.
    pub fn undo(&mut self, time: Option<f64>) -> Result<Option<u32>, Refusal> {
        let Some((node, before)) = self.past.pop() else { return Ok(None) };
        self.change(Kind::Undone, node, before, time).map(|()| Some(node))
    }

    /// The thresholds that stand are those of a file, which tells what was done before.
    pub fn reopened(&mut self, events: Vec<Event>) {
        self.events = events;
        self.past.clear();
    }

    pub fn can_undo(&self) -> bool {
        !self.past.is_empty()
    }

    /// The node to be tested next: of the quads in their order the first that lacks a threshold, and of its corners the first.
    pub fn next(&self) -> Option<u32> {
        let mut corners = self.order.iter().flat_map(|quad| self.paved.quads[*quad as usize]);
        corners.find(|node| self.threshold(*node).is_none())
    }

    /// The nodes to be tested next, so many at most, in their order.
    pub fn coming(&self, count: usize) -> Vec<u32> {
        let mut is_met = vec![false; self.paved.nodes.len()];
        let corners = self.order.iter().flat_map(|quad| self.paved.quads[*quad as usize]);
        let fresh =
            |node: &u32| !std::mem::replace(&mut is_met[*node as usize], true) && self.threshold(*node).is_none();
        corners.filter(fresh).take(count).collect()
    }

    /// The quads that have a node as a corner.
    pub fn quads_at(&self, node: u32) -> impl Iterator<Item = u32> + '_ {
        let quads = self.paved.quads.iter().enumerate();
        quads.filter(move |(_, quad)| quad.contains(&node)).map(|(number, _)| number as u32)
    }
}

#[cfg(test)]
mod tests {
    use super::{Kind, Record};
    use crate::closed::Seam;
    use crate::csv;
    use crate::run::Paved;
    use sitjorbe::raw::Settings;
    use sitjorbe::End;

    /// Two quads with a side in common.
    pub fn two_quads() -> Record {
        let nodes = vec![[0.0, 0.0], [1.0, 0.0], [1.0, 1.0], [0.0, 1.0], [2.0, 0.0], [2.0, 1.0]];
        let paved = Paved {
            settings: Settings { size: 1.0, sweeps: 400, passes: 600 },
            end: End::Still,
            whole: true,
            sound: true,
            origins: vec![0; nodes.len()],
            nodes,
            quads: vec![[0, 1, 2, 3], [1, 4, 5, 2]],
            left: vec![],
            seam: Seam::AsPaved,
        };
        let field = csv::parse("0,0\n2,0\n2,1\n0,1\n").unwrap();
        Record::begin(field, paved, vec![vec![0, 1, 4, 5, 2, 3]], "two".to_string(), None)
    }

    #[test]
    fn thresholds_come_and_go() {
        let mut exam = two_quads();
        let figures = |exam: &Record| exam.reader().figures();
        assert_eq!((exam.next(), figures(&exam)), (Some(0), (0, 0)));
        for (node, tenths) in [(0, 300), (1, 310), (2, 320), (3, 301)] {
            assert_eq!(exam.next(), Some(node));
            exam.change(Kind::Entered, node, Some(tenths), None).unwrap();
        }
        assert_eq!((exam.next(), figures(&exam)), (Some(4), (1, 1231)));
        exam.change(Kind::Entered, 0, Some(200), Some(5.0)).unwrap();
        assert_eq!(figures(&exam), (1, 1131), "replaced");
        exam.change(Kind::Withdrawn, 0, None, None).unwrap();
        assert_eq!((exam.next(), figures(&exam)), (Some(0), (0, 0)), "the patient blinked");
        assert_eq!(exam.change(Kind::Withdrawn, 0, None, None).unwrap_err().number(), 17);
        assert_eq!(exam.change(Kind::Entered, 0, Some(501), None).unwrap_err().number(), 16);
        assert_eq!(exam.change(Kind::Entered, 6, Some(1), None).unwrap_err().number(), 15);
        assert_eq!(exam.events.len(), 6, "what is refused is no event");
        assert_eq!(exam.undo(None), Ok(Some(0)));
        assert_eq!(figures(&exam), (1, 1131));
        for _ in 0..5 {
            exam.undo(None).unwrap();
        }
        assert_eq!((exam.undo(None), figures(&exam), exam.thresholds()), (Ok(None), (0, 0), vec![None; 6]));
        assert_eq!(exam.events.len(), 12);
    }
}
