//! The eight namings of two segments, with zeros of either sign: does a crossing answer them all alike?
use crate::entries::Crossed;
use inputs::Scene;

type Answer = Option<Crossed>;

/// Which is first, and which way each runs, by the bits of a number.
fn named(mut s: Scene, naming: u8) -> Scene {
    if naming & 1 != 0 {
        s.swap(0, 1);
    }
    if naming & 2 != 0 {
        s.swap(2, 3);
    }
    if naming & 4 != 0 {
        s.rotate_left(2);
    }
    s
}

/// Of the eight numbers those that are zero change their sign where the bit is set.
fn signed(s: Scene, bits: u8) -> Scene {
    let mut k = 0;
    s.map(|p| {
        p.map(|x| {
            let flips = x == 0.0 && bits >> k & 1 == 1;
            k += 1;
            if flips { -x } else { x }
        })
    })
}

/// All answers: each naming with the zeros as they stand, all changed, and those of `some` changed.
pub fn answers(s: Scene, some: u8, crossing: impl Fn(Scene) -> Answer) -> Vec<Answer> {
    let signs = [0, u8::MAX, some];
    (0..8).flat_map(|naming| signs.map(|bits| named(signed(s, bits), naming))).map(crossing).collect()
}

/// Whether they are one answer, and not a refusal.
pub fn is_one(answers: &[Answer]) -> bool {
    answers[0].is_some() && answers.iter().all(|answer| *answer == answers[0])
}
