//! `sitjorbe pave --best`: the size, of those around the one asked for, that paves the largest share.

use std::cmp::Ordering;

use sitjorbe::raw::Settings;

use crate::csv::Field;
use crate::exact::Exact;
use crate::figures::{self, percent};
use crate::run::{self, NotPaved, Paved};
use crate::words::short;

/// What the size asked for is multiplied by, the nearest first: of equal shares the first counts.
const FACTORS: [f64; 11] = [1.0, 0.975, 1.025, 0.95, 1.05, 0.9, 1.1, 0.85, 1.15, 0.8, 1.2];

/// The sizes that are tried: in range, and with few enough digits to be typed.
fn sizes(asked: f64) -> Vec<f64> {
    let rounded =
        |factor: f64| if factor == 1.0 { asked } else { format!("{:.3e}", asked * factor).parse().unwrap_or(asked) };
    let mut sizes: Vec<f64> = FACTORS.map(rounded).into_iter().filter(|size| (0.01..=100.0).contains(size)).collect();
    sizes.dedup();
    sizes
}

/// The best mesh of a field, and lines that say what was tried.
pub fn pave(field: &Field, settings: &Settings, stage: &dyn Fn(&str)) -> Result<(Paved, Vec<String>), NotPaved> {
    let mut tried: Vec<(f64, Option<f64>)> = vec![];
    let mut best: Option<(Paved, Exact)> = None;
    let total = figures::field_area(field);
    for size in sizes(settings.size) {
        stage(&format!("paving at {}°", short(size)));
        let paved = run::pave(field, &Settings { size, ..*settings })?;
        let area = figures::paved_area(&paved);
        tried.push((size, paved.sound.then(|| area.over(&total))));
        let better = best.as_ref().is_none_or(|(kept, most)| match paved.whole.cmp(&kept.whole) {
            Ordering::Equal => area.compared(most) == Ordering::Greater,
            order => order == Ordering::Greater,
        });
        if better {
            best = Some((paved, area));
        }
        if best.as_ref().is_some_and(|(kept, _)| kept.whole || !kept.sound) {
            break;
        }
    }
    // The size asked for has been paved at least, or refused above.
    let (kept, _) = best.ok_or(NotPaved::Refused(sitjorbe::Refusal::SizeOutOfRange))?;
    Ok((kept.clone(), vec![in_words(tried, &kept)]))
}

fn in_words(mut tried: Vec<(f64, Option<f64>)>, kept: &Paved) -> String {
    if !kept.sound {
        return "The outline isn't sound, so shares can't be compared: only the size asked for was tried.".to_string();
    }
    tried.sort_by(|(one, _), (other, _)| one.total_cmp(other));
    let words: Vec<String> = tried
        .iter()
        .map(|(size, share)| format!("{}° {}", short(*size), share.map_or(String::new(), percent)))
        .collect();
    format!("Tried {}; kept {}°.", words.join(", "), short(kept.settings.size))
}
