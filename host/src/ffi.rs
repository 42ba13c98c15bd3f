//! The library's entries as they cross: the `extern "C"` functions of all crates, with each slice as two parameters, pointer and length,
//! in the order of the Rattle signature, and a reference to a number as its pointer. Written by tools/bindings from their source.
//!
//! A pointer and its length must be those of one slice, and a pointer without a length that of a number; what may be written overlaps
//! nothing else that is lent. That is all an entry asks, and the wrappers in the crate's root see to it. "SCOPE" is what
//! docs/SCOPE.md and docs/FORMATS.md set out.

use core::mem::{offset_of, size_of};

/// The number of the shape that these declarations have: the library links only if its number is the same.
pub const ABI: u32 = 5;

/// The answer of `sitjorbe_contains`. `refusal` is the refusal's number, 0 where nothing is refused. The values of a
/// refused query are false, 0.0 or 0.
#[repr(C)]
#[derive(Clone, Copy, Debug, PartialEq)]
#[must_use = "an answer may be a refusal"]
pub struct ContainsAnswer {
    /// The refusal's number, 0 where nothing is refused.
    pub refusal: u32,
    /// Whether the point is inside the outer loop and outside every hole.
    pub inside: bool,
}

/// The answer of `sitjorbe_nearest_segment`.
#[repr(C)]
#[derive(Clone, Copy, Debug, PartialEq)]
#[must_use = "an answer may be a refusal"]
pub struct NearestAnswer {
    /// The refusal's number, 0 where nothing is refused.
    pub refusal: u32,
    /// X of the segment's first end.
    pub ax: f64,
    /// Y of the segment's first end.
    pub ay: f64,
    /// X of its other end.
    pub bx: f64,
    /// Y of its other end.
    pub by: f64,
    /// From the point to the nearest segment of the outline.
    pub distance: f64,
    /// The segment's loop: 0 for the outer one, k + 1 for hole k.
    pub loop_index: usize,
    /// The segment's place in its loop: 0 from the loop's first point to its second, in the order lent.
    pub segment_index: usize,
}

/// The answer of `sitjorbe_distance_to_boundary`.
#[repr(C)]
#[derive(Clone, Copy, Debug, PartialEq)]
#[must_use = "an answer may be a refusal"]
pub struct DistanceAnswer {
    /// The refusal's number, 0 where nothing is refused.
    pub refusal: u32,
    /// From the point to the nearest segment of the outline.
    pub distance: f64,
}

/// The answer of `sitjorbe_sound`.
#[repr(C)]
#[derive(Clone, Copy, Debug, PartialEq)]
#[must_use = "an answer may be a refusal"]
pub struct SoundAnswer {
    /// The refusal's number, 0 where nothing is refused.
    pub refusal: u32,
    /// Whether the outline is sound.
    pub sound: bool,
}

/// The answer of `sitjorbe_field`. A field record's floats and counts; its values and marks are in the lists lent.
/// `refusal` is the refusal's number, 0 where nothing is refused; on a refusal all else is 0.
#[repr(C)]
#[derive(Clone, Copy, Debug, PartialEq)]
#[must_use = "an answer may be a refusal"]
pub struct FieldRecordAnswer {
    /// The refusal's number, 0 where nothing is refused.
    pub refusal: u32,
    /// The grid's left column.
    pub xmin: f64,
    /// The grid's lowest row.
    pub ymin: f64,
    /// The distance of two neighbours of the grid.
    pub h: f64,
    /// Nodes in a row of the grid.
    pub nx: usize,
    /// Nodes in a column of the grid.
    pub ny: usize,
}

/// The answer of `sitjorbe_direction`.
#[repr(C)]
#[derive(Clone, Copy, Debug, PartialEq)]
#[must_use = "an answer may be a refusal"]
pub struct DirectionAnswer {
    /// The refusal's number, 0 where nothing is refused.
    pub refusal: u32,
    /// The direction's first coordinate.
    pub x: f64,
    /// The direction's second coordinate.
    pub y: f64,
}

/// The answer of `sitjorbe_places`. `refusal` is the refusal's number, 0 where nothing is refused; on a refusal both
/// counts are 0.
#[repr(C)]
#[derive(Clone, Copy, Debug, PartialEq)]
#[must_use = "an answer may be a refusal"]
pub struct PlacesAnswer {
    /// The refusal's number, 0 where nothing is refused.
    pub refusal: u32,
    /// How many nodes the field has; with fewer places refusal 9.
    pub field_nodes: usize,
    /// How many nodes the sampled outline has, and as many edges; with fewer places for either refusal 10.
    pub sampled_nodes: usize,
}

/// The answer of `sitjorbe_pave`. A run's end (0 still, 1 passes, 2 cap, 3 full) and whether it is whole, its field
/// record's floats and counts, how many nodes, quads, distinct edges and front edges it has, how many loops of the
/// front are listed, and the ids in all of them. All else is in the lists lent. All is 0 on a refusal.
#[repr(C)]
#[derive(Clone, Copy, Debug, PartialEq)]
#[must_use = "an answer may be a refusal"]
pub struct PaveAnswer {
    /// The refusal's number, 0 where nothing is refused.
    pub refusal: u32,
    /// How the paving ended.
    pub end: u32,
    /// Whether the mesh is whole; otherwise it is open.
    pub whole: bool,
    /// The grid's left column.
    pub xmin: f64,
    /// The grid's lowest row.
    pub ymin: f64,
    /// The distance of two neighbours of the grid.
    pub h: f64,
    /// Nodes in a row of the grid.
    pub nx: usize,
    /// Nodes in a column of the grid.
    pub ny: usize,
    /// How many nodes there are.
    pub nodes: u32,
    /// How many quads there are.
    pub quads: usize,
    /// How many distinct edges there are.
    pub edges: usize,
    /// How many edges the front has.
    pub front: usize,
    /// How many loops of the front are listed.
    pub loops: usize,
    /// How many node numbers the listed loops have in all.
    pub ids: usize,
}

/// The answer of `sitjorbe_covers`. `refusal` is 0 where nothing is refused; `place` is the quad, edge or node that 27
/// to 30 name. Stays a number beside a place: the C interface answers this struct.
#[repr(C)]
#[derive(Clone, Copy, Debug, PartialEq)]
#[must_use = "an answer may be a refusal"]
pub struct CoversAnswer {
    /// The refusal's number, 0 where nothing is refused.
    pub refusal: u32,
    /// The lowest quad on refusals 27 and 28, the first node of the lowest edge on 29, the first node on 30.
    pub place: usize,
    /// Whether the outline as drawn is sound, where nothing is refused.
    pub sound: bool,
}

/// The answer of `sitjorbe_step`. What became of the edge (0 placed, 1 none, 2 full, 3 cap), and how many nodes, quads,
/// distinct edges and front edges there are after it. All is 0 on a refusal.
#[repr(C)]
#[derive(Clone, Copy, Debug, PartialEq)]
#[must_use = "an answer may be a refusal"]
pub struct StepAnswer {
    /// The refusal's number, 0 where nothing is refused.
    pub refusal: u32,
    /// What became of the edge, or would: 0 placed, 1 none, 2 full, 3 cap.
    pub outcome: u32,
    /// How many nodes there are.
    pub nodes: u32,
    /// How many quads there are.
    pub quads: usize,
    /// How many distinct edges there are.
    pub edges: usize,
    /// How many edges the front has.
    pub front: usize,
}

/// The answer of `sitjorbe_preview`. What would become of the edge; the quad that would be placed, how many of its
/// nodes would be new, and where: corners c and d have 0 for coordinates where they aren't new, and all of the quad is
/// 0 where none would be placed; and how many front edges there would be. All is 0 on a refusal.
#[repr(C)]
#[derive(Clone, Copy, Debug, PartialEq)]
#[must_use = "an answer may be a refusal"]
pub struct PreviewAnswer {
    /// The refusal's number, 0 where nothing is refused.
    pub refusal: u32,
    /// What became of the edge, or would: 0 placed, 1 none, 2 full, 3 cap.
    pub outcome: u32,
    /// The quad's first node.
    pub a: u32,
    /// Its second node.
    pub b: u32,
    /// Its third node.
    pub d: u32,
    /// Its fourth node.
    pub c: u32,
    /// How many of the quad's nodes would be new.
    pub new_nodes: u32,
    /// X of c where it would be new.
    pub cx: f64,
    /// Y of c where it would be new.
    pub cy: f64,
    /// X of d where it would be new.
    pub dx: f64,
    /// Y of d where it would be new.
    pub dy: f64,
    /// How many edges the front has.
    pub front: usize,
}

/// The answer of `sitjorbe_exam` and `sitjorbe_exam_read`. The reply as it crosses: `refusal` is 0 where nothing is
/// refused; what isn't asked for is 0.
#[repr(C)]
#[derive(Clone, Copy, Debug, PartialEq)]
#[must_use = "an answer may be a refusal"]
pub struct ExamAnswer {
    /// The refusal's number, 0 where nothing is refused.
    pub refusal: u32,
    /// The node's first coordinate.
    pub x: f64,
    /// The node's second coordinate.
    pub y: f64,
    /// The quad's first node.
    pub a: u32,
    /// Its second node.
    pub b: u32,
    /// Its third node.
    pub d: u32,
    /// Its fourth node.
    pub c: u32,
    /// How many nodes the loop has.
    pub length: usize,
    /// In tenths of a decibel.
    pub threshold: u32,
    /// How many quads have all four thresholds.
    pub count: u32,
    /// The sum of those quads' thresholds.
    pub sum: u32,
    /// In tenths of a decibel.
    pub estimate: u32,
    /// The number of the outline's loop that the node came from.
    pub origin: u32,
}

/// The answer of `sitjorbe_order`. `refusal` is 0 where the list is accepted; 21 where some quad is absent, repeated or
/// unknown; 22 where the quad at `place` stands too early.
#[repr(C)]
#[derive(Clone, Copy, Debug, PartialEq)]
#[must_use = "an answer may be a refusal"]
pub struct OrderAnswer {
    /// The refusal's number, 0 where nothing is refused.
    pub refusal: u32,
    /// Where in the order a quad stands too early, on refusal 22.
    pub place: usize,
}

/// The answer of `sitjorbe_bowl_steps`. `refusal` is 23 or 25, 0 where nothing is refused; `quad` is the lowest quad
/// that the bowl can't show, where 25 says so.
#[repr(C)]
#[derive(Clone, Copy, Debug, PartialEq)]
#[must_use = "an answer may be a refusal"]
pub struct BowlStepsAnswer {
    /// The refusal's number, 0 where nothing is refused.
    pub refusal: u32,
    /// The lowest quad that the bowl can't show, on refusal 25.
    pub quad: usize,
}

/// The answer of `sitjorbe_small_quads`. `refusal` is 26 where the lent list is too short, 0 otherwise; `count` is how
/// many fours are listed.
#[repr(C)]
#[derive(Clone, Copy, Debug, PartialEq)]
#[must_use = "an answer may be a refusal"]
pub struct SmallQuadsAnswer {
    /// The refusal's number, 0 where nothing is refused.
    pub refusal: u32,
    /// How many small quads are listed.
    pub count: usize,
}

/// The answer of `sitjorbe_read_points`. What is answered of a text. `refusal` is 31 for a fault of the text, 14 where
/// a list is too short, or 0. Of the faults, of which there are `faults`, the one asked for has its kind, line and
/// column, and `leads` says that no row stands before it. `separator` is the byte between x and y, and `heading` the
/// line of the heading, or 0. `points` and `loops` say how many there are, where nothing is wrong with the text.
#[repr(C)]
#[derive(Clone, Copy, Debug, PartialEq)]
#[must_use = "an answer may be a refusal"]
pub struct PointsAnswer {
    /// The refusal's number, 0 where nothing is refused.
    pub refusal: u32,
    /// On refusal 31 what is wrong: 1 not two values, 2 x is missing, 3 y is missing, 4 x isn't a number, 5 y isn't a
    /// number, 6 a comment between two points of a loop, 7 more than 268,435,456 bytes.
    pub fault: u32,
    /// The fault's line, from 1.
    pub line: usize,
    /// The fault's column in bytes, from 1.
    pub column: usize,
    /// Whether no row stands before the fault's.
    pub leads: bool,
    /// How many faults the text has.
    pub faults: usize,
    /// The byte between x and y: 44 for a comma, 59 for a semicolon, 9 for a tab.
    pub separator: u32,
    /// The line of the heading, 0 where there is none.
    pub heading: usize,
    /// How many points there are.
    pub points: usize,
    /// How many loops there are.
    pub loops: usize,
}

/// As C lays the answers out on x86-64.
#[cfg(target_pointer_width = "64")]
const _: () = {
    assert!(offset_of!(ContainsAnswer, refusal) == 0);
    assert!(offset_of!(ContainsAnswer, inside) == 4);
    assert!(size_of::<ContainsAnswer>() == 8);
    assert!(offset_of!(NearestAnswer, refusal) == 0);
    assert!(offset_of!(NearestAnswer, ax) == 8);
    assert!(offset_of!(NearestAnswer, ay) == 16);
    assert!(offset_of!(NearestAnswer, bx) == 24);
    assert!(offset_of!(NearestAnswer, by) == 32);
    assert!(offset_of!(NearestAnswer, distance) == 40);
    assert!(offset_of!(NearestAnswer, loop_index) == 48);
    assert!(offset_of!(NearestAnswer, segment_index) == 56);
    assert!(size_of::<NearestAnswer>() == 64);
    assert!(offset_of!(DistanceAnswer, refusal) == 0);
    assert!(offset_of!(DistanceAnswer, distance) == 8);
    assert!(size_of::<DistanceAnswer>() == 16);
    assert!(offset_of!(SoundAnswer, refusal) == 0);
    assert!(offset_of!(SoundAnswer, sound) == 4);
    assert!(size_of::<SoundAnswer>() == 8);
    assert!(offset_of!(FieldRecordAnswer, refusal) == 0);
    assert!(offset_of!(FieldRecordAnswer, xmin) == 8);
    assert!(offset_of!(FieldRecordAnswer, ymin) == 16);
    assert!(offset_of!(FieldRecordAnswer, h) == 24);
    assert!(offset_of!(FieldRecordAnswer, nx) == 32);
    assert!(offset_of!(FieldRecordAnswer, ny) == 40);
    assert!(size_of::<FieldRecordAnswer>() == 48);
    assert!(offset_of!(DirectionAnswer, refusal) == 0);
    assert!(offset_of!(DirectionAnswer, x) == 8);
    assert!(offset_of!(DirectionAnswer, y) == 16);
    assert!(size_of::<DirectionAnswer>() == 24);
    assert!(offset_of!(PlacesAnswer, refusal) == 0);
    assert!(offset_of!(PlacesAnswer, field_nodes) == 8);
    assert!(offset_of!(PlacesAnswer, sampled_nodes) == 16);
    assert!(size_of::<PlacesAnswer>() == 24);
    assert!(offset_of!(PaveAnswer, refusal) == 0);
    assert!(offset_of!(PaveAnswer, end) == 4);
    assert!(offset_of!(PaveAnswer, whole) == 8);
    assert!(offset_of!(PaveAnswer, xmin) == 16);
    assert!(offset_of!(PaveAnswer, ymin) == 24);
    assert!(offset_of!(PaveAnswer, h) == 32);
    assert!(offset_of!(PaveAnswer, nx) == 40);
    assert!(offset_of!(PaveAnswer, ny) == 48);
    assert!(offset_of!(PaveAnswer, nodes) == 56);
    assert!(offset_of!(PaveAnswer, quads) == 64);
    assert!(offset_of!(PaveAnswer, edges) == 72);
    assert!(offset_of!(PaveAnswer, front) == 80);
    assert!(offset_of!(PaveAnswer, loops) == 88);
    assert!(offset_of!(PaveAnswer, ids) == 96);
    assert!(size_of::<PaveAnswer>() == 104);
    assert!(offset_of!(CoversAnswer, refusal) == 0);
    assert!(offset_of!(CoversAnswer, place) == 8);
    assert!(offset_of!(CoversAnswer, sound) == 16);
    assert!(size_of::<CoversAnswer>() == 24);
    assert!(offset_of!(StepAnswer, refusal) == 0);
    assert!(offset_of!(StepAnswer, outcome) == 4);
    assert!(offset_of!(StepAnswer, nodes) == 8);
    assert!(offset_of!(StepAnswer, quads) == 16);
    assert!(offset_of!(StepAnswer, edges) == 24);
    assert!(offset_of!(StepAnswer, front) == 32);
    assert!(size_of::<StepAnswer>() == 40);
    assert!(offset_of!(PreviewAnswer, refusal) == 0);
    assert!(offset_of!(PreviewAnswer, outcome) == 4);
    assert!(offset_of!(PreviewAnswer, a) == 8);
    assert!(offset_of!(PreviewAnswer, b) == 12);
    assert!(offset_of!(PreviewAnswer, d) == 16);
    assert!(offset_of!(PreviewAnswer, c) == 20);
    assert!(offset_of!(PreviewAnswer, new_nodes) == 24);
    assert!(offset_of!(PreviewAnswer, cx) == 32);
    assert!(offset_of!(PreviewAnswer, cy) == 40);
    assert!(offset_of!(PreviewAnswer, dx) == 48);
    assert!(offset_of!(PreviewAnswer, dy) == 56);
    assert!(offset_of!(PreviewAnswer, front) == 64);
    assert!(size_of::<PreviewAnswer>() == 72);
    assert!(offset_of!(ExamAnswer, refusal) == 0);
    assert!(offset_of!(ExamAnswer, x) == 8);
    assert!(offset_of!(ExamAnswer, y) == 16);
    assert!(offset_of!(ExamAnswer, a) == 24);
    assert!(offset_of!(ExamAnswer, b) == 28);
    assert!(offset_of!(ExamAnswer, d) == 32);
    assert!(offset_of!(ExamAnswer, c) == 36);
    assert!(offset_of!(ExamAnswer, length) == 40);
    assert!(offset_of!(ExamAnswer, threshold) == 48);
    assert!(offset_of!(ExamAnswer, count) == 52);
    assert!(offset_of!(ExamAnswer, sum) == 56);
    assert!(offset_of!(ExamAnswer, estimate) == 60);
    assert!(offset_of!(ExamAnswer, origin) == 64);
    assert!(size_of::<ExamAnswer>() == 72);
    assert!(offset_of!(OrderAnswer, refusal) == 0);
    assert!(offset_of!(OrderAnswer, place) == 8);
    assert!(size_of::<OrderAnswer>() == 16);
    assert!(offset_of!(BowlStepsAnswer, refusal) == 0);
    assert!(offset_of!(BowlStepsAnswer, quad) == 8);
    assert!(size_of::<BowlStepsAnswer>() == 16);
    assert!(offset_of!(SmallQuadsAnswer, refusal) == 0);
    assert!(offset_of!(SmallQuadsAnswer, count) == 8);
    assert!(size_of::<SmallQuadsAnswer>() == 16);
    assert!(offset_of!(PointsAnswer, refusal) == 0);
    assert!(offset_of!(PointsAnswer, fault) == 4);
    assert!(offset_of!(PointsAnswer, line) == 8);
    assert!(offset_of!(PointsAnswer, column) == 16);
    assert!(offset_of!(PointsAnswer, leads) == 24);
    assert!(offset_of!(PointsAnswer, faults) == 32);
    assert!(offset_of!(PointsAnswer, separator) == 40);
    assert!(offset_of!(PointsAnswer, heading) == 48);
    assert!(offset_of!(PointsAnswer, points) == 56);
    assert!(offset_of!(PointsAnswer, loops) == 64);
    assert!(size_of::<PointsAnswer>() == 72);
};

/// The number of the shape that the library has. It is [`ABI`], since a library of another shape doesn't link.
#[must_use]
pub fn abi() -> u32 {
    // SAFETY: it takes nothing, and answers a number.
    unsafe { sitjorbe_abi_5() }
}

/// Keeps the name of the shape's entry in every program, also in one that calls entries without the wrappers.
#[used]
static SHAPE: unsafe extern "C" fn() -> u32 = sitjorbe_abi_5;

#[link(name = "sitjorbe", kind = "static")]
extern "C" {
    /// The number of the library's shape, which its name has too.
    pub fn sitjorbe_abi_5() -> u32;

    /// Whether the point is inside the outer loop and outside every hole.
    pub fn sitjorbe_contains(
        outer: *const f64,
        outer_len: usize,
        holes: *const f64,
        holes_len: usize,
        hole_lengths: *const usize,
        hole_lengths_len: usize,
        x: f64,
        y: f64,
    ) -> ContainsAnswer;

    /// The segment of the outline nearest to the point, from a to b, and its distance; its loop, 0 for the outer one,
    /// and its place there.
    pub fn sitjorbe_nearest_segment(
        outer: *const f64,
        outer_len: usize,
        holes: *const f64,
        holes_len: usize,
        hole_lengths: *const usize,
        hole_lengths_len: usize,
        x: f64,
        y: f64,
    ) -> NearestAnswer;

    /// The distance from the point to the nearest segment of the outline.
    pub fn sitjorbe_distance_to_boundary(
        outer: *const f64,
        outer_len: usize,
        holes: *const f64,
        holes_len: usize,
        hole_lengths: *const usize,
        hole_lengths_len: usize,
        x: f64,
        y: f64,
    ) -> DistanceAnswer;

    /// Whether the outline is sound; refusals 1 to 4 come first, with false.
    pub fn sitjorbe_sound(
        outer: *const f64,
        outer_len: usize,
        holes: *const f64,
        holes_len: usize,
        hole_lengths: *const usize,
        hole_lengths_len: usize,
    ) -> SoundAnswer;

    /// Of the field's four directions at each point the one nearest to its target, which may be any two floats: three
    /// floats a point, 0 and the direction, or the number of what refuses the point and two zeros. Nothing is written
    /// where the whole list is refused.
    pub fn sitjorbe_directions(
        xmin: f64,
        ymin: f64,
        h: f64,
        nx: usize,
        ny: usize,
        values: *const f64,
        values_len: usize,
        marks: *const u8,
        marks_len: usize,
        points: *const f64,
        points_len: usize,
        targets: *const f64,
        targets_len: usize,
        answers: *mut f64,
        answers_len: usize,
    ) -> u32;

    /// The field of the outline, in the lists lent: two floats and a mark a node. Nothing is written on a refusal. The
    /// list of blocks is scratch of any length, which searches go by as far as it has room; the answer doesn't depend
    /// on it.
    pub fn sitjorbe_field(
        outer: *const f64,
        outer_len: usize,
        holes: *const f64,
        holes_len: usize,
        hole_lengths: *const usize,
        hole_lengths_len: usize,
        size: f64,
        sweeps: usize,
        values: *mut f64,
        values_len: usize,
        marks: *mut u8,
        marks_len: usize,
        blocks: *mut u32,
        blocks_len: usize,
    ) -> FieldRecordAnswer;

    /// Of the field's four directions at (x, y) the one nearest to the target (tx, ty), which may be any two floats.
    pub fn sitjorbe_direction(
        xmin: f64,
        ymin: f64,
        h: f64,
        nx: usize,
        ny: usize,
        values: *const f64,
        values_len: usize,
        marks: *const u8,
        marks_len: usize,
        x: f64,
        y: f64,
        tx: f64,
        ty: f64,
    ) -> DirectionAnswer;

    /// The places that a run of this outline and size can't do without. Quads, and the nodes and edges that they add,
    /// need more.
    pub fn sitjorbe_places(
        outer: *const f64,
        outer_len: usize,
        holes: *const f64,
        holes_len: usize,
        hole_lengths: *const usize,
        hole_lengths_len: usize,
        size: f64,
    ) -> PlacesAnswer;

    /// The run whole, from the field to the loops of the front, in the lists lent. `origins` gets for each node the
    /// number of the outline's loop that it came from. Nothing is written on a refusal. The pools, the list of blocks
    /// and `tried` are scratch of any length, which searches go by as far as they have room, and which edges tried in
    /// vain are noted in, three numbers a node; the answer doesn't depend on them.
    pub fn sitjorbe_pave(
        outer: *const f64,
        outer_len: usize,
        holes: *const f64,
        holes_len: usize,
        hole_lengths: *const usize,
        hole_lengths_len: usize,
        size: f64,
        sweeps: usize,
        passes: usize,
        values: *mut f64,
        values_len: usize,
        marks: *mut u8,
        marks_len: usize,
        xs: *mut f64,
        xs_len: usize,
        ys: *mut f64,
        ys_len: usize,
        next: *mut u32,
        next_len: usize,
        prev: *mut u32,
        prev_len: usize,
        snapshot: *mut u32,
        snapshot_len: usize,
        origins: *mut u16,
        origins_len: usize,
        quads: *mut u32,
        quads_len: usize,
        edges: *mut u32,
        edges_len: usize,
        loops: *mut u32,
        loops_len: usize,
        loop_lengths: *mut u32,
        loop_lengths_len: usize,
        node_pool: *mut u32,
        node_pool_len: usize,
        edge_pool: *mut u32,
        edge_pool_len: usize,
        blocks: *mut u32,
        blocks_len: usize,
        tried: *mut u32,
        tried_len: usize,
    ) -> PaveAnswer;

    /// Whether the quads of a mesh, whatever made it, cover each point of the outline as a run samples it once. Its
    /// first nodes have to be the sampled outline's. The lists that begin with `sampled_`, and `keys`, are scratch,
    /// which may be written. `sound` says whether the outline as drawn is sound. Stays a row of numbers and slices: C
    /// calls it.
    pub fn sitjorbe_covers(
        outer: *const f64,
        outer_len: usize,
        holes: *const f64,
        holes_len: usize,
        hole_lengths: *const usize,
        hole_lengths_len: usize,
        size: f64,
        xs: *const f64,
        xs_len: usize,
        ys: *const f64,
        ys_len: usize,
        quads: *const u32,
        quads_len: usize,
        node_count: u32,
        quad_count: usize,
        sampled_xs: *mut f64,
        sampled_xs_len: usize,
        sampled_ys: *mut f64,
        sampled_ys_len: usize,
        sampled_next: *mut u32,
        sampled_next_len: usize,
        sampled_prev: *mut u32,
        sampled_prev_len: usize,
        sampled_edges: *mut u32,
        sampled_edges_len: usize,
        keys: *mut u64,
        keys_len: usize,
    ) -> CoversAnswer;

    /// A step on the front edge a to b, in the mesh lent: one quad placed or none. Refusals are 1 to 7, 11, 23 and 24,
    /// in that order. New nodes take what stands in `origins` at node a.
    pub fn sitjorbe_step(
        outer: *const f64,
        outer_len: usize,
        holes: *const f64,
        holes_len: usize,
        hole_lengths: *const usize,
        hole_lengths_len: usize,
        size: f64,
        xmin: f64,
        ymin: f64,
        h: f64,
        nx: usize,
        ny: usize,
        values: *const f64,
        values_len: usize,
        marks: *const u8,
        marks_len: usize,
        xs: *mut f64,
        xs_len: usize,
        ys: *mut f64,
        ys_len: usize,
        next: *mut u32,
        next_len: usize,
        prev: *mut u32,
        prev_len: usize,
        origins: *mut u16,
        origins_len: usize,
        quads: *mut u32,
        quads_len: usize,
        edges: *mut u32,
        edges_len: usize,
        node_count: u32,
        quad_count: usize,
        edge_count: usize,
        front_count: usize,
        a: u32,
        b: u32,
    ) -> StepAnswer;

    /// What a step on the front edge a to b would do, and in the list the front edges that it would leave, u then v, by
    /// their first node: an edge takes two numbers. The mesh is only read.
    pub fn sitjorbe_preview(
        outer: *const f64,
        outer_len: usize,
        holes: *const f64,
        holes_len: usize,
        hole_lengths: *const usize,
        hole_lengths_len: usize,
        size: f64,
        xmin: f64,
        ymin: f64,
        h: f64,
        nx: usize,
        ny: usize,
        values: *const f64,
        values_len: usize,
        marks: *const u8,
        marks_len: usize,
        xs: *const f64,
        xs_len: usize,
        ys: *const f64,
        ys_len: usize,
        next: *const u32,
        next_len: usize,
        prev: *const u32,
        prev_len: usize,
        origins: *const u16,
        origins_len: usize,
        quads: *const u32,
        quads_len: usize,
        edges: *const u32,
        edges_len: usize,
        node_count: u32,
        quad_count: usize,
        edge_count: usize,
        front_count: usize,
        a: u32,
        b: u32,
        list: *mut u32,
        list_len: usize,
    ) -> PreviewAnswer;

    /// One request of one role to an exam. 20 comes before all else; where anything is refused, nothing lent is
    /// written.
    pub fn sitjorbe_exam(
        role: u32,
        operation: u32,
        item: u32,
        value: u32,
        u: u32,
        v: u32,
        nodes: u32,
        xs: *const f64,
        xs_len: usize,
        ys: *const f64,
        ys_len: usize,
        quad_count: usize,
        quads: *const u32,
        quads_len: usize,
        next: *const u32,
        next_len: usize,
        prev: *const u32,
        prev_len: usize,
        origins: *const u16,
        origins_len: usize,
        thresholds: *mut u16,
        thresholds_len: usize,
        count: *mut u32,
        sum: *mut u32,
        reply: *mut u32,
        reply_len: usize,
    ) -> ExamAnswer;

    /// One reading request of a reader or a masked reader, to whom the results are lent for reading alone: what
    /// `sitjorbe_exam` answers to the role. The desk's role has no operation here. 20 comes before all else, and where
    /// anything is refused the reply list isn't written. A masked reader needs no results: any list and any figures do.
    pub fn sitjorbe_exam_read(
        role: u32,
        operation: u32,
        item: u32,
        u: u32,
        v: u32,
        nodes: u32,
        xs: *const f64,
        xs_len: usize,
        ys: *const f64,
        ys_len: usize,
        quad_count: usize,
        quads: *const u32,
        quads_len: usize,
        next: *const u32,
        next_len: usize,
        prev: *const u32,
        prev_len: usize,
        origins: *const u16,
        origins_len: usize,
        thresholds: *const u16,
        thresholds_len: usize,
        count: *const u32,
        sum: *const u32,
        reply: *mut u32,
        reply_len: usize,
    ) -> ExamAnswer;

    /// Whether the quads may be tested in this order: each of them once, and after every quad that laid a front edge
    /// which it used up. `places` and `pool` are scratch of any length: what they hold doesn't change the answer. A
    /// refusal may write them too: 21 `places` alone, and 22 both.
    pub fn sitjorbe_order(
        quad_count: usize,
        quads: *const u32,
        quads_len: usize,
        order: *const u32,
        order_len: usize,
        places: *mut usize,
        places_len: usize,
        pool: *mut u32,
        pool_len: usize,
    ) -> OrderAnswer;

    /// The nodes of a lent mesh in whole steps of 1/64 degree, each coordinate at the nearest step, halves at the even
    /// one. The mesh is only read, and the buffer is written once nothing is refused.
    pub fn sitjorbe_bowl_steps(
        xs: *const f64,
        xs_len: usize,
        ys: *const f64,
        ys_len: usize,
        next: *const u32,
        next_len: usize,
        prev: *const u32,
        prev_len: usize,
        origins: *const u16,
        origins_len: usize,
        quads: *const u32,
        quads_len: usize,
        edges: *const u32,
        edges_len: usize,
        node_count: u32,
        quad_count: usize,
        edge_count: usize,
        front_count: usize,
        steps: *mut i32,
        steps_len: usize,
    ) -> BowlStepsAnswer;

    /// Every small quad, on the first places of the lent list: four numbers a four, in dictionary order.
    pub fn sitjorbe_small_quads(fours: *mut u32, fours_len: usize) -> SmallQuadsAnswer;

    /// Reads an operator's points file, bytes as they are, onto the first places of the lists: `coordinates` has x and
    /// y of each point, `lines` its line from 1, `point_counts` how many points each loop has, the outline first, and
    /// `loop_marks` three numbers a loop: where the comment that names it begins and ends, counted in bytes behind a
    /// byte order mark, and the line of its last point where that repeats the first and is left out, or 0. `which` of
    /// the faults is told, from 0. Refused, nothing is written.
    pub fn sitjorbe_read_points(
        text: *const u8,
        text_len: usize,
        which: usize,
        coordinates: *mut f64,
        coordinates_len: usize,
        lines: *mut usize,
        lines_len: usize,
        point_counts: *mut usize,
        point_counts_len: usize,
        loop_marks: *mut usize,
        loop_marks_len: usize,
    ) -> PointsAnswer;
}
