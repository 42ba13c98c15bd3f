//! Changes of the mesh under work, with a journal by which a trial is taken back.

use alloc::vec::Vec;

use super::net::{Net, State};
use super::plane::Point;

/// What a step changed, to take it back.
#[derive(Clone, Copy, Debug)]
pub(super) enum Undo {
    Quad(u32, [u32; 4], State),
    Moved(u32, Point),
    Added(u32),
    Dropped(u32),
    NewHole,
    Filled(u32),
}

impl Net {
    fn note(&mut self, undo: Undo) {
        if self.trials > 0 {
            self.journal.push(undo);
        }
    }

    fn touch(&mut self, ids: &[u32]) {
        self.changes += 1;
        ids.iter().for_each(|&id| self.changed[id as usize] = self.changes);
    }

    /// Begins a trial; it ends by [`Net::keep`] or [`Net::take_back`].
    pub(super) fn trial(&mut self) -> usize {
        self.trials += 1;
        self.journal.len()
    }

    pub(super) fn keep(&mut self) {
        self.trials -= 1;
        if self.trials > 0 {
            return;
        }
        let journal = core::mem::take(&mut self.journal);
        for undo in &journal {
            if let &Undo::Quad(q, old, _) = undo {
                let new = self.quads[q as usize];
                self.touch(&old);
                self.touch(&new);
            }
        }
        self.journal = journal;
        self.journal.clear();
    }

    pub(super) fn take_back(&mut self, begun: usize) {
        self.trials -= 1;
        while self.journal.len() > begun {
            match self.journal.pop() {
                Some(Undo::Quad(q, ids, state)) => self.put(q, ids, state),
                Some(Undo::Moved(node, place)) => self.points[node as usize] = place,
                Some(Undo::Added(node)) => {
                    self.there[node as usize] = false;
                    self.spare(node);
                }
                Some(Undo::Dropped(node)) => self.there[node as usize] = true,
                Some(Undo::NewHole) => {
                    let last = self.holes.len() - 1;
                    self.hold(last, false);
                    self.holes.pop();
                    self.open.pop();
                }
                Some(Undo::Filled(hole)) => self.hold(hole as usize, true),
                None => break,
            }
        }
    }

    /// Makes a quad what it was or shall be, in its nodes' rings too.
    fn put(&mut self, q: u32, ids: [u32; 4], state: State) {
        if self.state(q) != State::Gone {
            for id in self.quads[q as usize] {
                let ring = &mut self.rings[id as usize];
                if let Some(k) = ring.iter().position(|&other| other == q) {
                    ring.remove(k);
                }
            }
        }
        if state == State::Gone {
            self.spare_quads.push(q);
        } else {
            ids.iter().for_each(|&id| self.rings[id as usize].push(q));
        }
        self.quads[q as usize] = ids;
        self.states[q as usize] = state;
    }

    pub(super) fn set_quad(&mut self, q: u32, ids: [u32; 4], state: State) {
        let old = self.quads[q as usize];
        self.note(Undo::Quad(q, old, self.state(q)));
        self.put(q, ids, state);
        if self.trials == 0 {
            self.touch(&old);
            self.touch(&ids);
        }
    }

    pub(super) fn remove_quad(&mut self, q: u32) {
        self.set_quad(q, self.quads[q as usize], State::Gone);
    }

    pub(super) fn add_quad(&mut self, ids: [u32; 4]) -> u32 {
        let mut spare = self.spare_quads.pop();
        while spare.is_some_and(|q| self.state(q) != State::Gone) {
            spare = self.spare_quads.pop();
        }
        let q = spare.unwrap_or(self.quads.len() as u32);
        if q as usize == self.quads.len() {
            self.quads.push(ids);
            self.states.push(State::Gone);
        }
        self.set_quad(q, ids, State::Open);
        q
    }

    /// Says of a quad that is there what may be done with it.
    pub(super) fn set_state(&mut self, q: u32, state: State) {
        self.note(Undo::Quad(q, self.quads[q as usize], self.state(q)));
        self.states[q as usize] = state;
    }

    pub(super) fn move_to(&mut self, node: u32, place: Point) {
        self.note(Undo::Moved(node, self.at(node)));
        self.points[node as usize] = place;
    }

    pub(super) fn add_node(&mut self, place: Point) -> u32 {
        let mut spare = self.spare_nodes.pop();
        while spare.is_some_and(|node| self.there[node as usize]) {
            spare = self.spare_nodes.pop();
        }
        let node = spare.unwrap_or(self.points.len() as u32);
        if node as usize == self.points.len() {
            self.points.push(place);
            self.rings.push(Vec::new());
            self.held.push(0);
            self.fixed.push(false);
            self.there.push(false);
            self.changed.push(0);
        }
        self.move_to(node, place);
        self.there[node as usize] = true;
        self.note(Undo::Added(node));
        node
    }

    /// Takes a node off that no quad has any more.
    pub(super) fn drop_node(&mut self, node: u32) {
        self.note(Undo::Dropped(node));
        self.there[node as usize] = false;
        self.spare(node);
    }

    fn spare(&mut self, node: u32) {
        if node as usize >= self.paved {
            self.spare_nodes.push(node);
        }
    }

    fn hold(&mut self, hole: usize, open: bool) {
        self.open[hole] = open;
        for id in self.holes[hole] {
            let held = &mut self.held[id as usize];
            *held = if open { held.saturating_add(1) } else { held.saturating_sub(1) };
        }
    }

    pub(super) fn add_hole(&mut self, ids: [u32; 3]) -> u32 {
        self.holes.push(ids);
        self.open.push(false);
        let hole = self.holes.len() - 1;
        self.hold(hole, true);
        self.note(Undo::NewHole);
        hole as u32
    }

    pub(super) fn fill_hole(&mut self, hole: u32) {
        self.note(Undo::Filled(hole));
        self.hold(hole as usize, false);
    }
}
