//! What the library takes for granted of the processor's floats.

/// Whether floats are as the proofs take them: rounded to nearest, with no flush to zero and no small number taken for zero, and with every
/// exception masked.
///
/// So they are in every program that doesn't ask for anything else. A program that does, by `fesetround` or by a compiler's `-ffast-math`, gets
/// other meshes than those proved, and nothing says so: therefore each wrapper that hands floats to the library asks this in a debug build, and
/// panics where it isn't so.
#[must_use]
pub fn are_floats_as_proved() -> bool {
    control() & MEANT == EVERY_EXCEPTION_MASKED
}

/// Of the control word: zeros for small numbers read (6), exception masks (7 to 12), rounding (13 and 14), flush to zero (15).
const MEANT: u32 = 0xffc0;
const EVERY_EXCEPTION_MASKED: u32 = 0x1f80;

/// The processor's control word for floats, MXCSR.
#[cfg(target_arch = "x86_64")]
fn control() -> u32 {
    let mut word = 0u32;
    // SAFETY: the instruction writes four bytes to where it is pointed to, and changes nothing else.
    unsafe { core::arch::asm!("stmxcsr [{}]", in(reg) &mut word, options(nostack, preserves_flags)) };
    word
}

/// The library is for x86-64 alone: elsewhere this crate can be checked, and not linked.
#[cfg(not(target_arch = "x86_64"))]
fn control() -> u32 {
    EVERY_EXCEPTION_MASKED
}

/// In a debug build: panics where floats aren't as the proofs take them.
#[track_caller]
pub(crate) fn check() {
    debug_assert!(are_floats_as_proved(), "floats must be rounded to nearest, with no flush to zero: {:#x}", control());
}

#[cfg(all(test, target_arch = "x86_64"))]
mod tests {
    use super::{are_floats_as_proved, control};
    use std::panic;

    /// What a work answers while the control word is another. No float is touched in between.
    fn under<T>(word: u32, work: impl FnOnce() -> T) -> T {
        let set =
            |word: u32| unsafe { core::arch::asm!("ldmxcsr [{}]", in(reg) &word, options(nostack, preserves_flags)) };
        let before = control();
        set(word);
        let answer = work();
        set(before);
        answer
    }

    #[test]
    fn they_are_unless_a_program_asks_for_something_else() {
        assert!(are_floats_as_proved());
        let flags_alone = control() | 0x3f;
        assert!(under(flags_alone, are_floats_as_proved));
        for other in [1 << 6, 1 << 13, 1 << 14, 3 << 13, 1 << 15] {
            assert!(!under(0x1f80 | other, are_floats_as_proved), "{other:#x}");
        }
        assert!(!under(0x1f80 & !(1 << 12), are_floats_as_proved), "an exception that isn't masked");
    }

    #[test]
    #[cfg(debug_assertions)]
    fn a_debug_build_panics_where_they_are_not() {
        let outline = crate::raw::Outline { outer: &[0.0, 0.0, 1.0, 0.0, 0.0, 1.0], holes: &[], hole_lengths: &[] };
        let towards_zero = 0x1f80 | 3 << 13;
        let asked = under(towards_zero, || panic::catch_unwind(|| crate::raw::contains(&outline, [0.25, 0.25])));
        assert!(asked.is_err());
        assert_eq!(crate::raw::contains(&outline, [0.25, 0.25]), Ok(true));
    }
}
