//! The driver, a child of each build: SCOPE's entries over the reference's private items.
//!
//! The refusals, the ends and the counts needed before anything is built are written from SCOPE; what is computed
//! after them is the reference's. The counts are compared with what the reference then builds.

use super::{bounds, distance, Cell, CrossField, Domain, EdgeIndex, NodeIndex, Options, Paving, Sizing, TwoDError};
use crate::file;
use crate::sound::is_sound;
use crate::terms::{check_point, Drawing, End, FieldRecord, Lent, LentMesh, Outcome, Outline, Refusal, Run, Settings};

const MOST_SWEEPS: u64 = 1_000;
const MOST_PASSES: u64 = 600;
const MOST_QUADS: usize = 250_000;
const MOST_FIELD_NODES: u64 = 250_000;

/// An outline that passed refusals 1 to 4, and the queries on it.
pub struct Region {
    domain: Domain,
}

impl Region {
    /// 1, then 2 and 3 loop by loop as `Domain::new` has them, then 4 over all loops.
    pub fn new(outline: Outline<'_>) -> Result<Region, Refusal> {
        outline.check_lists()?;
        let mut loops = outline.loops();
        let holes = loops.split_off(1);
        let domain = Domain::new(loops.remove(0), holes).map_err(|error| match error {
            TwoDError::LoopTooShort(_) => Refusal(2),
            TwoDError::NonFinite => Refusal(3),
            other => unreachable!("Domain::new answered {other:?}"),
        })?;
        outline.check_coordinates()?;
        Ok(Region { domain })
    }

    pub fn contains(&self, p: [f64; 2]) -> Result<bool, Refusal> {
        check_point(p)?;
        Ok(self.domain.contains(p))
    }

    /// The segment's two ends and the distance.
    pub fn nearest_segment(&self, p: [f64; 2]) -> Result<([f64; 2], [f64; 2], f64), Refusal> {
        check_point(p)?;
        Ok(self.domain.nearest_segment(p))
    }

    pub fn distance_to_boundary(&self, p: [f64; 2]) -> Result<f64, Refusal> {
        check_point(p)?;
        Ok(self.domain.distance_to_boundary(p))
    }

    /// The grid that SCOPE gives the field; 7 where the box has no width or no height.
    fn grid(&self, size: f64) -> Result<Grid, Refusal> {
        let (xmin, xmax, ymin, ymax) = bounds(&self.domain).map_err(|_| Refusal(7))?;
        let count = |extent: f64, h: f64| ((extent / h).ceil() as u64).max(2) + 3;
        let mut h = 0.5 * size;
        loop {
            let (nx, ny) = (count(xmax - xmin, h), count(ymax - ymin, h));
            if nx * ny <= MOST_FIELD_NODES {
                return Ok(Grid { h, nx, ny });
            }
            h *= 1.25;
        }
    }

    /// The number of nodes of the sampled outline.
    fn sampled(&self, size: f64) -> u64 {
        let loops = std::iter::once(&self.domain.outer).chain(&self.domain.holes);
        loops
            .map(|points| {
                let ends = points.iter().zip(points.iter().cycle().skip(1));
                let parts = ends.map(|(&a, &b)| ((distance(a, b) / (1.05 * size)).ceil() as u64).max(1));
                parts.sum::<u64>().next_multiple_of(2)
            })
            .sum()
    }
}

struct Grid {
    h: f64,
    nx: u64,
    ny: u64,
}

/// A field: built here, or lent as a record with its values and marks.
pub struct Field {
    field: CrossField,
}

impl Field {
    /// The field of an outline: refusals 1 to 9.
    pub fn new(outline: Outline<'_>, size: f64, sweeps: u64, lent_nodes: u64) -> Result<Field, Refusal> {
        Field::of_region(&Region::new(outline)?, size, sweeps, lent_nodes)
    }

    fn of_region(region: &Region, size: f64, sweeps: u64, lent_nodes: u64) -> Result<Field, Refusal> {
        check_field(region, size, sweeps, lent_nodes)?;
        Ok(Field::build(region, size, sweeps))
    }

    /// The reference's field, of the size that `grid` foretold. The checks must have passed.
    fn build(region: &Region, size: f64, sweeps: u64) -> Field {
        let options = Options { field_sweeps: sweeps as usize };
        let field = CrossField::new_with_options(&region.domain, &Sizing { size, all_quad: false }, &options)
            .expect("the reference builds a field that isn't refused");
        let grid = region.grid(size).expect("checked before");
        assert_eq!(
            (grid.h.to_bits(), grid.nx, grid.ny),
            (field.h.to_bits(), field.nx as u64, field.ny as u64),
            "the grid as SCOPE has it, and as the reference built it"
        );
        Field { field }
    }

    /// A field lent as a record, values (two floats a node) and marks: refusal 11.
    pub fn lent(record: FieldRecord, values: &[f64], marks: &[bool]) -> Result<Field, Refusal> {
        record.check(values, marks.len())?;
        let field = CrossField {
            xmin: record.xmin,
            ymin: record.ymin,
            h: record.h,
            nx: record.nx as usize,
            ny: record.ny as usize,
            values: values.chunks_exact(2).map(|v| [v[0], v[1]]).collect(),
            fixed: marks.to_vec(),
        };
        Ok(Field { field })
    }

    pub fn record(&self) -> FieldRecord {
        let CrossField { xmin, ymin, h, nx, ny, .. } = self.field;
        FieldRecord { xmin, ymin, h, nx: nx as u64, ny: ny as u64 }
    }

    pub fn values(&self) -> &[[f64; 2]] {
        &self.field.values
    }

    pub fn marks(&self) -> &[bool] {
        &self.field.fixed
    }

    /// The direction nearest to a target at a point: 3 and 4 of the point; the target may be any two floats.
    pub fn direction(&self, p: [f64; 2], target: [f64; 2]) -> Result<[f64; 2], Refusal> {
        check_point(p)?;
        Ok(self.field.nearest_direction(p, target))
    }
}

/// Refusals 5 to 9.
fn check_field(region: &Region, size: f64, sweeps: u64, lent_nodes: u64) -> Result<(), Refusal> {
    Settings::check_size(size)?;
    let grid = region.grid(size)?;
    if sweeps > MOST_SWEEPS {
        return Err(Refusal(8));
    }
    if grid.nx * grid.ny > lent_nodes {
        return Err(Refusal(9));
    }
    Ok(())
}

/// The places a paving may still use, and whether a quad asked for more.
pub(super) struct Places {
    nodes: u64,
    quads: u64,
    edges: u64,
    pub(super) full: bool,
}

impl Places {
    /// More than any run uses.
    pub(super) fn endless() -> Places {
        Places { nodes: u64::MAX, quads: u64::MAX, edges: u64::MAX, full: false }
    }

    fn of(lent: &Lent) -> Places {
        Places { nodes: lent.node_places(), quads: lent.quads, edges: lent.edges, full: false }
    }
}

impl Paving {
    /// Called before a quad a, b, d, c is committed: whether it needs a node, quad or distinct edge beyond those lent.
    pub(super) fn runs_out(&mut self, quad: &[usize; 4], new_nodes: usize) -> bool {
        let sides = (0..4).map(|k| (quad[k], quad[(k + 1) % 4]));
        let new_edges = sides.filter(|&(u, v)| !self.edge_set.contains(&(u.min(v), u.max(v)))).count();
        self.places.full = (self.points.len() + new_nodes) as u64 > self.places.nodes
            || (self.quads.len() + 1) as u64 > self.places.quads
            || (self.edge_set.len() + new_edges) as u64 > self.places.edges;
        self.places.full
    }

    /// Advances pass by pass, so that the end can be told.
    fn advance_to_end(&mut self, field: &CrossField, domain: &Domain, size: f64, passes: u64) -> End {
        for _ in 0..passes.min(MOST_PASSES) {
            let before = self.quads.len();
            self.advance(field, domain, size, 1);
            if self.places.full {
                return End::Full;
            }
            if self.quads.len() >= MOST_QUADS {
                return End::Cap;
            }
            if self.quads.len() == before {
                return End::Still;
            }
        }
        End::Passes
    }

    /// What is answered of a paving of the outline. Of all this the outline's soundness alone isn't the reference's.
    fn answer(&self, outline: Outline<'_>, end: End) -> Run {
        let drawn = outline.loops();
        let flat: Vec<&[f64]> = drawn.iter().map(|points| points.as_flattened()).collect();
        self.left(|| is_sound(&flat), end)
    }

    /// What is left of a paving, of an outline that is sound or not: asked only where no loop is left.
    fn left(&self, sound: impl FnOnce() -> bool, end: End) -> Run {
        let loops = self.front_loops();
        let sorted = |mut pairs: Vec<(usize, usize)>| {
            pairs.sort_unstable();
            pairs
        };
        Run {
            whole: loops.is_empty() && sound(),
            loops,
            front: sorted(self.next.iter().map(|(&u, &v)| (u, v)).collect()),
            edges: sorted(self.edge_set.iter().copied().collect()),
            nodes: self.points.iter().map(|&[x, y, _]| [x, y]).collect(),
            quads: self.quads.iter().map(|&quad| Cell::quad4(quad).nodes.try_into().unwrap()).collect(),
            end,
        }
    }
}

/// The sampled outline, once it fits (10).
fn sample(region: &Region, size: f64, lent: &Lent) -> Result<Paving, Refusal> {
    let sampled = region.sampled(size);
    if sampled > lent.node_places() || sampled > lent.edges {
        return Err(Refusal(10));
    }
    let mut paving = Paving::from_boundary(&region.domain, size).expect("the reference samples an outline not refused");
    assert_eq!(
        (sampled, sampled, sampled),
        (paving.points.len() as u64, paving.next.len() as u64, paving.edge_set.len() as u64),
        "nodes, front edges and distinct edges of the sampled outline"
    );
    paving.places = Places::of(lent);
    Ok(paving)
}

/// The sampled outline alone, as a run that used no pass: refusals 1 to 6 and 10.
pub fn front(outline: Outline<'_>, size: f64, lent: &Lent) -> Result<Run, Refusal> {
    let region = Region::new(outline)?;
    Settings::check_size(size)?;
    Ok(sample(&region, size, lent)?.answer(outline, End::Passes))
}

/// The whole run, from the field to `front_loops`: refusals 1 to 10.
pub fn pave(outline: Outline<'_>, settings: Settings, lent: &Lent) -> Result<Run, Refusal> {
    pave_again(outline, settings, lent, &mut None)
}

/// The same run, which leaves its field for the next one: runs of the same outline, size and sweeps make it once.
pub fn pave_again(
    outline: Outline<'_>,
    settings: Settings,
    lent: &Lent,
    field: &mut Option<Field>,
) -> Result<Run, Refusal> {
    let Settings { size, sweeps, passes } = settings;
    let region = Region::new(outline)?;
    check_field(&region, size, sweeps, lent.field_nodes)?;
    let mut paving = sample(&region, size, lent)?;
    let Field { field } = field.get_or_insert_with(|| Field::build(&region, size, sweeps));
    let end = paving.advance_to_end(field, &region.domain, size, passes);
    Ok(paving.answer(outline, end))
}

/// The whole run of a file: 12 and 13, then the rest.
pub fn pave_file(bytes: &[u8], lent: &Lent) -> Result<Run, Refusal> {
    let (drawing, settings): (Drawing, Settings) = file::read(bytes)?;
    pave(drawing.outline(), settings, lent)
}

/// The same run with one call of `advance` and no limit of places: the reference untouched, to hold `pave` against.
pub fn pave_in_one_call(outline: Outline<'_>, settings: Settings) -> Result<Run, Refusal> {
    let Settings { size, sweeps, passes } = settings;
    let region = Region::new(outline)?;
    check_field(&region, size, sweeps, u64::MAX)?;
    let field = Field::build(&region, size, sweeps);
    let mut paving = Paving::from_boundary(&region.domain, size).expect("the reference samples an outline not refused");
    paving.advance(&field.field, &region.domain, size, usize::try_from(passes).unwrap_or(usize::MAX));
    Ok(paving.answer(outline, End::Passes))
}

/// A front stepped by hand: the reference's own `try_edge` on the edges named.
pub struct Stepping {
    region: Region,
    field: Field,
    size: f64,
    paving: Paving,
}

impl Stepping {
    /// The sampled outline and its field: refusals 1 to 10.
    pub fn new(outline: Outline<'_>, size: f64, sweeps: u64, lent: &Lent) -> Result<Stepping, Refusal> {
        let region = Region::new(outline)?;
        check_field(&region, size, sweeps, lent.field_nodes)?;
        let paving = sample(&region, size, lent)?;
        let field = Field::build(&region, size, sweeps);
        Ok(Stepping { region, field, size, paving })
    }

    /// Any mesh, whether or not a run leaves such, in so many places: refusals 1 to 6 and 11. The mesh must have ids of its own nodes only.
    pub fn of_mesh(
        outline: Outline<'_>,
        size: f64,
        (record, values, marks): (FieldRecord, &[f64], &[bool]),
        mesh: &LentMesh,
        lent: &Lent,
    ) -> Result<Stepping, Refusal> {
        let region = Region::new(outline)?;
        Settings::check_size(size)?;
        let field = Field::lent(record, values, marks)?;
        let mut paving = Paving {
            points: Vec::new(),
            quads: mesh.quads.clone(),
            next: mesh.links.iter().copied().collect(),
            prev: mesh.links.iter().map(|&(u, v)| (v, u)).collect(),
            edges: EdgeIndex::new(2.0 * size),
            edge_set: mesh.edges.iter().copied().collect(),
            nodes: NodeIndex::new(size),
            size,
            places: Places::of(lent),
        };
        for &p in &mesh.nodes {
            paving.push_node(p);
        }
        for &edge in &mesh.edges {
            paving.edges.insert(&paving.points, edge);
        }
        Ok(Stepping { region, field, size, paving })
    }

    /// The two attempts on a front edge; none at all where 250,000 quads stand.
    pub fn step(&mut self, a: usize, b: usize) -> Outcome {
        if self.paving.quads.len() >= MOST_QUADS {
            return Outcome::Cap;
        }
        self.paving.places.full = false;
        if self.paving.try_edge(a, b, &self.field.field, &self.region.domain, self.size) {
            return Outcome::Placed;
        }
        if self.paving.places.full {
            Outcome::Full
        } else {
            Outcome::None
        }
    }

    /// What is lent from now on.
    pub fn lend(&mut self, lent: &Lent) {
        self.paving.places = Places::of(lent);
    }

    /// The mesh as it stands.
    pub fn mesh(&self) -> Run {
        self.paving.left(|| true, End::Passes)
    }

    pub fn field(&self) -> &Field {
        &self.field
    }
}
