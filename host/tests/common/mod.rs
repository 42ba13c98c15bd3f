//! What the tests share: outlines that own their lists, lists lent with guards round them, and the raw answers.
#![allow(dead_code)] // each test uses a part of it

pub mod blocks;
pub mod book;
pub mod exam;
pub mod fields;
pub mod origins;
pub mod rng;
pub mod sound;
pub mod steps;
pub mod whole;

use std::hint::black_box;

use sitjorbe::raw::{field, pave, Lists, Mesh, Outline, Settings};
use sitjorbe::{ffi, FieldRecord, Places, Refusal};

/// An outline that owns its lists.
#[derive(Clone, Debug, Default)]
pub struct Drawing {
    pub outer: Vec<f64>,
    pub holes: Vec<f64>,
    pub hole_lengths: Vec<usize>,
}

impl Drawing {
    /// The drawing of these loops, the outer one first.
    pub fn of_loops(loops: &[Vec<[f64; 2]>]) -> Drawing {
        Drawing {
            outer: loops[0].concat(),
            holes: loops[1..].concat().concat(),
            hole_lengths: loops[1..].iter().map(Vec::len).collect(),
        }
    }

    pub fn square(side: f64) -> Drawing {
        Drawing::of_loops(&[vec![[0.0, 0.0], [side, 0.0], [side, side], [0.0, side]]])
    }

    /// The square with a slit, whose mouth is `e` wide on either side of 0 at the height `f`.
    pub fn slit(e: f64, f: f64) -> Drawing {
        Drawing::of_loops(&[vec![[-1.0, -2.0], [1.0, -2.0], [1.0, 0.0], [-e, f], [0.0, -1.0], [e, f], [-1.0, 0.0]]])
    }

    /// Each segment cut into so many.
    pub fn cut(&self, parts: usize) -> Drawing {
        let point = |points: &[f64], k: usize| [0, 1].map(|axis| points[(2 * k + axis) % points.len()]);
        let cut = |points: &[f64], k: usize| {
            let (a, b, part) =
                (point(points, k / parts), point(points, k / parts + 1), (k % parts) as f64 / parts as f64);
            [a[0] + part * (b[0] - a[0]), a[1] + part * (b[1] - a[1])]
        };
        let of_loop = |points: &[f64]| (0..parts * points.len() / 2).map(|k| cut(points, k)).collect();
        Drawing::of_loops(&self.loops().into_iter().map(of_loop).collect::<Vec<_>>())
    }

    /// The coordinates of each loop, where the lengths fit.
    pub fn loops(&self) -> Vec<&[f64]> {
        let (mut loops, mut rest) = (vec![&self.outer[..]], &self.holes[..]);
        for &length in &self.hole_lengths {
            let (hole, after) = rest.split_at(2 * length);
            loops.push(hole);
            rest = after;
        }
        loops
    }

    /// The number of loops, as the lengths have it.
    pub fn loop_count(&self) -> usize {
        self.hole_lengths.len() + 1
    }

    /// How many points it has, those of the holes too.
    pub fn points(&self) -> usize {
        (self.outer.len() + self.holes.len()) / 2
    }

    pub fn outline(&self) -> Outline<'_> {
        Outline { outer: &self.outer, holes: &self.holes, hole_lengths: &self.hole_lengths }
    }
}

/// What a list's places hold: a value to guard with, one to fill lists with that nothing writes, and the bits to compare.
pub trait Place: Copy {
    const GUARD: Self;
    const FILL: Self;
    fn bits(self) -> u64;
}

impl Place for f64 {
    // A NaN: were it ever read, an answer would show it.
    const GUARD: f64 = f64::from_bits(0x7ff8_5afe_5afe_5afe);
    const FILL: f64 = -7.5;
    fn bits(self) -> u64 {
        self.to_bits()
    }
}

impl Place for usize {
    const GUARD: usize = 0x5afe_5afe_5afe_5afe;
    const FILL: usize = 0xa5a5_a5a5_a5a5_a5a5;
    fn bits(self) -> u64 {
        self as u64
    }
}

impl Place for u32 {
    const GUARD: u32 = 0x5afe_5afe;
    const FILL: u32 = 0xa5a5_a5a5;
    fn bits(self) -> u64 {
        u64::from(self)
    }
}

impl Place for i32 {
    const GUARD: i32 = 0x5afe_5afe;
    const FILL: i32 = -0x5a5a_5a5a;
    fn bits(self) -> u64 {
        u64::from(self as u32)
    }
}

impl Place for u16 {
    const GUARD: u16 = 0x5afe;
    const FILL: u16 = 0xa5a5;
    fn bits(self) -> u64 {
        u64::from(self)
    }
}

impl Place for u8 {
    const GUARD: u8 = 0x5a;
    const FILL: u8 = 0xa5;
    fn bits(self) -> u64 {
        u64::from(self)
    }
}

/// A list with guards before and after it.
pub struct Guarded<T> {
    places: Vec<T>,
    before: Vec<u64>,
}

impl<T: Place> Guarded<T> {
    const GUARDS: usize = 8;

    pub fn new(list: &[T]) -> Guarded<T> {
        let guards = [T::GUARD; 8];
        let places = [&guards[..], list, &guards[..]].concat();
        let before = places.iter().map(|place| place.bits()).collect();
        Guarded { places, before }
    }

    pub fn list(&self) -> &[T] {
        &self.places[Self::GUARDS..self.places.len() - Self::GUARDS]
    }

    pub fn list_mut(&mut self) -> &mut [T] {
        let end = self.places.len() - Self::GUARDS;
        &mut self.places[Self::GUARDS..end]
    }

    /// The list's pointer and length. The pointer may be written through, so that a write would be seen.
    pub fn parts(&mut self) -> (*const T, usize) {
        let length = self.list().len();
        (self.places[Self::GUARDS..].as_mut_ptr(), length)
    }

    /// Whether every bit of the list and its guards is what it was.
    pub fn kept(&self) -> bool {
        self.kept_from(0)
    }

    /// Whether the guards, and the places of the list from number `first` on, keep every bit.
    pub fn kept_from(&self, first: usize) -> bool {
        let places = black_box(&self.places);
        let same = |k: usize| places[k].bits() == self.before[k];
        let first = first.min(self.list().len());
        (0..Self::GUARDS).chain(Self::GUARDS + first..places.len()).all(same)
    }
}

/// A list of a length, with its guards, to be written.
pub fn filled<T: Place>(length: usize) -> Guarded<T> {
    Guarded::new(&vec![T::FILL; length])
}

/// A drawing lent list by list, each with its guards.
pub struct Lent {
    pub outer: Guarded<f64>,
    pub holes: Guarded<f64>,
    pub hole_lengths: Guarded<usize>,
}

impl Lent {
    pub fn new(drawing: &Drawing) -> Lent {
        Lent {
            outer: Guarded::new(&drawing.outer),
            holes: Guarded::new(&drawing.holes),
            hole_lengths: Guarded::new(&drawing.hole_lengths),
        }
    }

    pub fn outline(&self) -> Outline<'_> {
        Outline { outer: self.outer.list(), holes: self.holes.list(), hole_lengths: self.hole_lengths.list() }
    }

    pub fn kept(&self) -> bool {
        self.outer.kept() && self.holes.kept() && self.hole_lengths.kept()
    }
}

/// A field's lists, each with its guards, filled with floats, bytes and numbers that no field has.
pub struct FieldPlaces {
    pub values: Guarded<f64>,
    pub marks: Guarded<u8>,
    pub blocks: Guarded<u32>,
}

impl FieldPlaces {
    pub fn new(values: usize, marks: usize, blocks: usize) -> FieldPlaces {
        FieldPlaces { values: filled(values), marks: filled(marks), blocks: filled(blocks) }
    }

    /// Asks the wrapper for a field in these places.
    pub fn field(&mut self, outline: &Outline<'_>, size: f64, sweeps: usize) -> Result<FieldRecord, Refusal> {
        field(outline, size, sweeps, self.values.list_mut(), self.marks.list_mut(), self.blocks.list_mut())
    }

    /// Whether nothing was written at all.
    pub fn kept(&self) -> bool {
        self.values.kept() && self.marks.kept() && self.blocks.kept()
    }

    /// Whether nothing was written but the first nodes' values and marks, and the blocks.
    pub fn kept_past(&self, nodes: usize) -> bool {
        self.values.kept_from(2 * nodes) && self.marks.kept_from(nodes) && self.blocks.kept_from(usize::MAX)
    }
}

/// The lists lent to a run, in the entry's order.
pub const LISTS: [&str; 16] = [
    "values",
    "marks",
    "xs",
    "ys",
    "next",
    "prev",
    "snapshot",
    "origins",
    "quads",
    "edges",
    "loops",
    "lengths",
    "node_pool",
    "edge_pool",
    "blocks",
    "tried",
];

/// A length for each of them, in that order.
pub type Lengths = [usize; LISTS.len()];

/// The lengths of lists with so many places, and of `lengths` as `Memory` has it.
pub fn list_lengths(places: Places) -> Lengths {
    let Places { field_nodes: f, nodes: n, quads: q, edges: e, .. } = places;
    let [node_pool, edge_pool] = places.pools();
    [2 * f, f, n, n, n, n, n, n, 4 * q, 2 * e, n, n / 4, node_pool, edge_pool, places.blocks(), places.tried()]
}

/// How many places of each list a mesh has used: of the pools, the blocks and `tried` it may use all.
pub fn used(mesh: &Mesh<'_>) -> Lengths {
    let (f, n) = (mesh.record().nodes(), mesh.node_count());
    let ids = mesh.front_loops().map(<[u32]>::len).sum();
    let (quads, edges, all) = (4 * mesh.quad_count(), 2 * mesh.edge_count(), usize::MAX);
    [2 * f, f, n, n, n, n, n, n, quads, edges, ids, mesh.loop_count(), all, all, all, all]
}

/// All that a mesh says, as bits.
pub fn said(mesh: &Mesh<'_>) -> Vec<Vec<u64>> {
    let FieldRecord { xmin, ymin, h, nx, ny } = mesh.record();
    let ((values, marks), (next, prev)) = (mesh.field(), mesh.links());
    let numbers = [mesh.end() as usize, usize::from(mesh.is_whole()), nx, ny, mesh.front_count(), mesh.loop_count()];
    let mut all = vec![bits(&numbers), bits(&[xmin, ymin, h]), bits(values), bits(marks), bits(next), bits(prev)];
    all.push(bits(mesh.origins()));
    all.push(mesh.nodes().flatten().map(Place::bits).collect());
    all.push(mesh.quads().flatten().map(Place::bits).collect());
    all.push(mesh.edges().flatten().map(Place::bits).collect());
    all.extend(mesh.front_loops().map(bits));
    all
}

/// Lengths by kind, as `lists_by_kind` takes the lists.
pub fn by_kind(lengths: Lengths) -> ([usize; 3], usize, usize, [usize; 11]) {
    let [values, marks, xs, ys, next, prev, snapshot, origins, quads, edges, loops, by_loop, nodes, filed, blocks, tried] =
        lengths;
    let numbers = [next, prev, snapshot, quads, edges, loops, by_loop, nodes, filed, blocks, tried];
    ([values, xs, ys], marks, origins, numbers)
}

/// A run's lists, each kind in the order of the fields: `values`, `xs`, `ys`; `marks`; `origins`; `next` to `tried`.
pub fn lists_by_kind<'a>(
    floats: [&'a mut [f64]; 3],
    marks: &'a mut [u8],
    origins: &'a mut [u16],
    numbers: [&'a mut [u32]; 11],
) -> Lists<'a> {
    let [values, xs, ys] = floats;
    let [next, prev, snapshot, quads, edges, loops, lengths, node_pool, edge_pool, blocks, tried] = numbers;
    Lists {
        values,
        marks,
        xs,
        ys,
        origins,
        next,
        prev,
        snapshot,
        quads,
        edges,
        loops,
        loop_lengths: lengths,
        node_pool,
        edge_pool,
        blocks,
        tried,
    }
}

/// The bits of each place.
pub fn bits<T: Place>(list: &[T]) -> Vec<u64> {
    list.iter().map(|place| place.bits()).collect()
}

/// A run's lists, each with its guards, filled with numbers that no run writes there.
pub struct RunPlaces {
    /// By kind, as `lists_by_kind` takes them.
    pub floats: [Guarded<f64>; 3],
    pub marks: Guarded<u8>,
    pub origins: Guarded<u16>,
    pub numbers: [Guarded<u32>; 11],
}

impl RunPlaces {
    pub fn new(lengths: Lengths) -> RunPlaces {
        let (floats, marks, origins, numbers) = by_kind(lengths);
        let (floats, numbers) = (floats.map(filled), numbers.map(filled));
        RunPlaces { floats, marks: filled(marks), origins: filled(origins), numbers }
    }

    pub fn lists(&mut self) -> Lists<'_> {
        let RunPlaces { floats, marks, origins, numbers } = self;
        let (floats, numbers) = (floats.each_mut().map(Guarded::list_mut), numbers.each_mut().map(Guarded::list_mut));
        lists_by_kind(floats, marks.list_mut(), origins.list_mut(), numbers)
    }

    /// The outline's blocks.
    pub fn blocks(&self) -> &[u32] {
        self.numbers[9].list()
    }

    /// Asks the wrapper for a run in these places.
    pub fn pave(&mut self, outline: &Outline<'_>, settings: &Settings) -> Result<Mesh<'_>, Refusal> {
        pave(outline, settings, self.lists())
    }

    /// The lists of which something was written past so many places, or beside the list.
    pub fn written_past(&self, used: Lengths) -> Vec<&'static str> {
        let (floats, marks, origins, numbers) = by_kind(used);
        let [values, xs, ys] = [0, 1, 2].map(|k| self.floats[k].kept_from(floats[k]));
        let first = [values, self.marks.kept_from(marks), xs, ys];
        let mut rest: Vec<bool> = self.numbers.iter().zip(numbers).map(|(list, used)| list.kept_from(used)).collect();
        rest.insert(3, self.origins.kept_from(origins));
        let kept = first.into_iter().chain(rest);
        LISTS.into_iter().zip(kept).filter(|(_, kept)| !kept).map(|(name, _)| name).collect()
    }
}

/// The three entries' answers, as they cross.
#[derive(Clone, Copy, Debug)]
pub struct Raw {
    pub contains: ffi::ContainsAnswer,
    pub nearest: ffi::NearestAnswer,
    pub distance: ffi::DistanceAnswer,
}

impl Raw {
    /// Asks all three entries.
    ///
    /// # Safety
    ///
    /// Each pointer must come with the length of its list.
    pub unsafe fn ask(
        (outer, outer_len): (*const f64, usize),
        (holes, holes_len): (*const f64, usize),
        (lens, lens_len): (*const usize, usize),
        [x, y]: [f64; 2],
    ) -> Raw {
        Raw {
            contains: ffi::sitjorbe_contains(outer, outer_len, holes, holes_len, lens, lens_len, x, y),
            nearest: ffi::sitjorbe_nearest_segment(outer, outer_len, holes, holes_len, lens, lens_len, x, y),
            distance: ffi::sitjorbe_distance_to_boundary(outer, outer_len, holes, holes_len, lens, lens_len, x, y),
        }
    }

    /// The three refusals.
    pub fn refusals(&self) -> [u32; 3] {
        [self.contains.refusal, self.nearest.refusal, self.distance.refusal]
    }

    /// Every value beside the refusals, as bits.
    pub fn values(&self) -> [u64; 9] {
        let ffi::NearestAnswer { ax, ay, bx, by, distance, loop_index, segment_index, .. } = self.nearest;
        let [loop_index, segment_index] = [loop_index, segment_index].map(|index| index as u64);
        let [ax, ay, bx, by, near, far] = [ax, ay, bx, by, distance, self.distance.distance].map(f64::to_bits);
        [u64::from(self.contains.inside), ax, ay, bx, by, near, loop_index, segment_index, far]
    }
}

/// Drawings and points that are refused, with the number: each of 1 to 4 for each of its causes, and the order among them.
pub fn refused() -> Vec<(&'static str, Drawing, [f64; 2], u32)> {
    let square = || Drawing::square(4.0);
    let hole = |points: &[f64], lengths: &[usize]| Drawing {
        holes: points.to_vec(),
        hole_lengths: lengths.to_vec(),
        ..Drawing::square(4.0)
    };
    let with = |place: usize, x: f64| {
        let mut drawing = Drawing::square(4.0);
        drawing.outer[place] = x;
        drawing
    };
    let triangle = [1.0, 1.0, 2.0, 1.0, 1.0, 2.0];
    let broken = [1.0, 1.0, f64::NAN, 1.0, 1.0, 2.0];
    let above = 1_000.0f64.next_up();
    let points = |n: usize| Drawing { outer: vec![0.5; 2 * n], ..Drawing::default() };
    let with_hole = |n: usize, holes: &[f64], lengths: &[usize]| Drawing {
        holes: holes.to_vec(),
        hole_lengths: lengths.to_vec(),
        ..points(n)
    };
    let inside = [1.0, 1.0];
    vec![
        ("an odd outer list", Drawing { outer: vec![0.0; 7], ..square() }, inside, 1),
        ("an odd list of holes", hole(&[1.0; 7], &[3]), inside, 1),
        ("lengths for no points", hole(&[], &[3]), inside, 1),
        ("points without lengths", hole(&triangle, &[]), inside, 1),
        ("a length too few", hole(&triangle, &[2]), inside, 1),
        ("a length too many", hole(&triangle, &[4]), inside, 1),
        ("lengths whose sum wraps round to the points", hole(&triangle, &[usize::MAX, 4]), inside, 1),
        (
            "many lengths whose sum wraps round",
            hole(&triangle, &[usize::MAX / 2 + 1, 3, usize::MAX / 2 + 1]),
            inside,
            1,
        ),
        ("a length whose double wraps round", hole(&triangle, &[usize::MAX / 2 + 4]), inside, 1),
        ("4,097 points", points(4_097), inside, 1),
        ("4,095 points and a hole of two", with_hole(4_095, &triangle[..4], &[2]), inside, 1),
        ("4,094 points and a hole of three", with_hole(4_094, &triangle, &[3]), inside, 1),
        ("4,097 points, none finite", Drawing { outer: vec![f64::NAN; 2 * 4_097], ..Drawing::default() }, inside, 1),
        ("1,366 loops of three", Drawing::of_loops(&vec![vec![[1.0, 1.0], [2.0, 1.0], [1.0, 2.0]]; 1_366]), inside, 1),
        ("4,094 points and a hole of two", with_hole(4_094, &triangle[..4], &[2]), inside, 2),
        ("4,096 points and holes of none", with_hole(4_096, &[], &[0, 0, 0]), inside, 2),
        ("4,096 points, none finite", Drawing { outer: vec![f64::NAN; 2 * 4_096], ..Drawing::default() }, inside, 3),
        ("4,096 points beyond 1,000", Drawing { outer: vec![above; 2 * 4_096], ..Drawing::default() }, inside, 4),
        ("1 before 2 and 3", hole(&broken, &[2]), [f64::NAN, 0.0], 1),
        ("no points", points(0), inside, 2),
        ("two points", points(2), inside, 2),
        ("a hole of two points", hole(&triangle[..4], &[2]), inside, 2),
        ("a hole of no points", hole(&triangle, &[0, 3]), inside, 2),
        ("a short hole after a good one", hole(&triangle, &[3, 0]), inside, 2),
        ("a short hole before one not finite", hole(&[triangle, broken].concat(), &[1, 5]), inside, 2),
        ("not a number", with(0, f64::NAN), inside, 3),
        ("infinite", with(7, f64::INFINITY), inside, 3),
        ("infinite downwards", with(2, f64::NEG_INFINITY), inside, 3),
        ("a hole not finite", hole(&broken, &[3]), inside, 3),
        (
            "the outer loop's 3 before a hole's 2",
            Drawing { holes: vec![], hole_lengths: vec![0], ..with(3, f64::NAN) },
            inside,
            3,
        ),
        ("a hole's 3 before the next one's 2", hole(&[broken, triangle].concat(), &[3, 2, 1]), inside, 3),
        (
            "a hole's 3 before the outer loop's 4",
            Drawing { holes: broken.to_vec(), hole_lengths: vec![3], ..with(0, above) },
            inside,
            3,
        ),
        ("beyond 1,000", with(4, above), inside, 4),
        ("beyond 1,000 downwards", with(5, -above), inside, 4),
        ("a hole beyond 1,000", hole(&[1.0, 1.0, 2e3, 1.0, 1.0, 2.0], &[3]), inside, 4),
        ("the outline's 4 before the point's 3", with(4, above), [f64::NAN, 0.0], 4),
        ("the point not a number", square(), [f64::NAN, 1.0], 3),
        ("the point infinite", square(), [1.0, f64::INFINITY], 3),
        ("the point's 3 before its 4", square(), [2e3, f64::NEG_INFINITY], 3),
        ("the point beyond 1,000", square(), [above, 1.0], 4),
        ("the point beyond 1,000 downwards", square(), [1.0, -above], 4),
    ]
}
