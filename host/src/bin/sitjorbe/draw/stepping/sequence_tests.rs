//! Sequences of moves that are full, late, or given up.

use std::sync::Arc;
use std::time::{Duration, Instant};

use sitjorbe::{Memory, Places};

use super::moves::{Asked, Move};
use super::sequence::{Ground, Lent, Limit, Sequence, Stopped, PATIENCE};
use super::Ticket;
use crate::csv::{Field, Point};
use crate::run::Drawing;

/// A square of side 2, of which four quads of size 1 can be placed.
fn asked(moves: &[Move], look: Option<[u32; 2]>) -> Asked {
    let points = [[0.0, 0.0], [2.0, 0.0], [2.0, 2.0], [0.0, 2.0]].map(|[x, y]| Point { x, y, line: 0 });
    let field = Field { loops: vec![points.to_vec()], names: vec![String::new()], notes: vec![] };
    Asked { field, size: 1.0, moves: moves.to_vec(), look }
}

/// Why moves end where there are places for so many quads, if they do.
fn ends(asked: &Asked, quads: usize, time: Duration) -> Option<Stopped> {
    ends_with(asked, quads, time, &Arc::default())
}

fn ends_with(asked: &Asked, quads: usize, time: Duration, ticket: &Arc<Ticket>) -> Option<Stopped> {
    let drawing = Drawing::of(&asked.field);
    let places = Places::for_outline(&drawing.outline(), asked.size, 1).unwrap();
    let mut lent = Lent { memory: Memory::new(Places { quads, ..places }).unwrap(), quads };
    let limit = Limit { until: Instant::now() + time, ticket: Arc::clone(ticket) };
    let made = Sequence::begin(asked, &drawing, &mut lent, &mut Ground::default(), &limit);
    made.and_then(|mut made| made.advance(asked, &limit)).err()
}

fn is_full(asked: &Asked, quads: usize) -> bool {
    matches!(ends(asked, quads, PATIENCE), Some(Stopped::Full))
}

#[test]
fn full_lists_are_noticed() {
    let first = Move::Edge([3, 4]);
    assert!(!is_full(&asked(&[], None), 0));
    for (moves, quads) in [(vec![first], 1), (vec![first, Move::Passes(1)], 4), (vec![first, Move::Edge([5, 6])], 2)] {
        assert!(is_full(&asked(&moves, None), quads - 1), "{moves:?}");
        assert!(!is_full(&asked(&moves, None), quads), "{moves:?}");
    }
    // Passes that come first are a run's, which says that it was full by as many quads as there are places for.
    assert!(is_full(&asked(&[Move::Passes(1)], None), 3));
    assert!(!is_full(&asked(&[Move::Passes(1)], None), 5));
    assert!(is_full(&asked(&[], Some([3, 4])), 0), "a look");
    assert!(!is_full(&asked(&[], Some([3, 4])), 1));
}

#[test]
fn what_takes_too_long_is_given_up() {
    for moves in [vec![Move::Passes(1)], vec![Move::Edge([3, 4])], vec![Move::Edge([3, 4]), Move::Passes(600)]] {
        assert!(ends(&asked(&moves, None), 99, PATIENCE).is_none());
        assert!(matches!(ends(&asked(&moves, None), 99, Duration::ZERO), Some(Stopped::TooMuch(_))), "{moves:?}");
    }
    assert!(ends(&asked(&[], Some([3, 4])), 99, Duration::ZERO).is_none(), "nothing is to be done");
}

#[test]
fn what_nobody_waits_for_is_given_up() {
    let ticket = Arc::new(Ticket::default());
    for moves in [vec![Move::Passes(1)], vec![Move::Edge([3, 4])], vec![Move::Edge([3, 4]), Move::Passes(600)]] {
        assert!(ends_with(&asked(&moves, None), 99, PATIENCE, &ticket).is_none());
    }
    ticket.give_up();
    for moves in [vec![Move::Passes(1)], vec![Move::Edge([3, 4])], vec![Move::Edge([3, 4]), Move::Passes(600)]] {
        assert!(matches!(ends_with(&asked(&moves, None), 99, PATIENCE, &ticket), Some(Stopped::GivenUp)), "{moves:?}");
    }
}
