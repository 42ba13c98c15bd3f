//! Repair: round each quad with a low corner a patch is filled anew, the worst first.

use alloc::vec::Vec;

use super::net::{Net, State};
use super::plane::{along, angle, middle, sine_of, step};
use super::points::Spacing;
use super::work::{Halt, Work};

/// The least sine that is wanted: in the first round, and in the others.
const WANTED: [f64; 3] = [0.5, 0.42, 0.42];
/// What a patch must gain.
const GAIN: f64 = 0.02;
/// Spacings, by sizes and by the distance across, that are tried in later rounds too.
const FINER: [(f64, Option<f64>); 5] =
    [(1.0, Some(0.7)), (1.0, Some(0.45)), (0.5, None), (1.0, Some(0.3)), (0.35, None)];
/// A corner of the outline with one quad and more degrees wants two.
const WIDE: f64 = 140.0;

impl Net {
    /// The best least sine that the outline's corners leave to a quad there.
    fn attainable(&self, q: u32) -> f64 {
        let best = |&id: &u32| {
            let even = (1..=4).map(|n| self.full(id) / f64::from(n)).filter(|&each| each < 180.0);
            even.map(sine_of).fold(0.0, f64::max)
        };
        let corners = self.quads[q as usize];
        corners.iter().filter(|&&id| self.is_outline(id)).map(best).fold(1.0, f64::min)
    }

    fn wanted(&self, q: u32, target: f64) -> f64 {
        target.min(self.attainable(q) - 0.03)
    }
}

impl Work<'_> {
    /// Mends what is low, round by round.
    pub(super) fn repair(&mut self) -> Result<(), Halt> {
        for (round, target) in WANTED.into_iter().enumerate() {
            let mut low: Vec<(f64, u32)> = self.net.all_quads().map(|q| (self.net.sine(q), q)).collect();
            low.retain(|&(sine, q)| sine < self.net.wanted(q, target));
            low.sort_by(|one, other| one.0.total_cmp(&other.0).then(one.1.cmp(&other.1)));
            for (_, q) in low {
                let is_low = self.net.state(q) != State::Gone && self.net.sine(q) < self.net.wanted(q, target);
                if is_low && self.refills > 0 {
                    self.mend(q, round, target)?;
                }
            }
        }
        Ok(())
    }

    fn mend(&mut self, q: u32, round: usize, target: f64) -> Result<(), Halt> {
        let wanted = self.net.wanted(q, target);
        let nodes = self.net.quads[q as usize];
        let mut spacings = self.usual_spacings();
        let rings: &[(usize, bool)] = match round {
            0 => &[(1, false), (2, false), (1, true), (2, true)],
            _ => &[(2, true), (3, true), (4, true), (5, true)],
        };
        if round > 0 {
            spacings.extend(FINER.map(|(part, across)| Spacing { size: part * self.net.size, across }));
        }
        for &(rings, kept) in rings {
            let patch = self.patch_round(&nodes, rings, kept);
            let round_it = self.with_rings(&patch.quads, 1);
            let least = self.least_sine(&round_it);
            if !patch.quads.contains(&q) || least >= wanted {
                continue;
            }
            if self.best_of(&[patch], &spacings, least + GAIN, wanted)? {
                if self.net.state(q) == State::Gone || self.net.sine(q) >= wanted {
                    return Ok(());
                }
                break;
            }
        }
        self.part_in_five(q)
    }

    /// Puts five quads in place of one that fills a wide corner of the outline alone: one in the middle and four round it.
    fn part_in_five(&mut self, q: u32) -> Result<(), Halt> {
        if self.net.state(q) == State::Gone {
            return Ok(());
        }
        let (ids, corners) = (self.net.quads[q as usize], self.net.corners(q));
        let wide = (0..4).any(|k| {
            self.net.is_outline(ids[k])
                && self.net.ring(ids[k]).len() == 1
                && angle(corners[(k + 3) % 4], corners[k], corners[(k + 1) % 4]) > WIDE
        });
        if !wide {
            return Ok(());
        }
        let round_it = self.with_rings(&[q], 1);
        let least = self.least_sine(&round_it);
        let begun = self.net.trial();
        let centre = middle(middle(corners[0], corners[2]), middle(corners[1], corners[3]));
        let inner = corners.map(|corner| self.net.add_node(along(centre, 0.4, step(centre, corner))));
        self.net.remove_quad(q);
        let mut five = [self.net.add_quad(inner)].to_vec();
        for k in 0..4 {
            let next = (k + 1) % 4;
            five.push(self.net.add_quad([ids[k], ids[next], inner[next], inner[k]]));
        }
        let nodes = self.with_rings(&five, 1);
        let nodes = self.nodes_of(&nodes);
        self.smooth(&nodes, 14)?;
        self.lift(&five, 0.6)?;
        let round_it = self.with_rings(&five, 1);
        if self.least_sine(&round_it) > least + GAIN {
            self.net.keep();
        } else {
            self.net.take_back(begun);
        }
        Ok(())
    }
}
