//! How large the pile gets, by the steps of a query alone (change request S-6).

use crate::answers::{Refusal, MAX_LEVELS, NO_GROUND};
use crate::query::{taken_steps, Step};

/// All the frames that a record of as many levels as are taken has room for: each container below the
/// root costs at most one.
pub const MAX_FRAMES: u32 = MAX_LEVELS as u32 - 1;

/// The four answers on the pile of a query.
#[derive(Clone, Copy, PartialEq, Eq, Debug)]
pub struct Bound {
    pub ground: u32,
    pub place: usize,
    pub bounded: bool,
    pub frames: u32,
}

/// The most frames that these steps allow: as many as there are steps where all are plain, and one
/// fewer where plain steps, or none, stand before one or more deep ones. A plain step behind a deep one
/// leaves no bound.
fn frames_by_steps(steps: &[Step]) -> Option<usize> {
    let plain = steps.iter().take_while(|step| !step.deep).count();
    let behind = &steps[plain..];
    match behind {
        [] => Some(steps.len()),
        _ if behind.iter().all(|step| step.deep) => Some(steps.len() - 1),
        _ => None,
    }
}

/// The bound on the pile of a query: in no record is the peak of a lister larger than its frames.
pub fn bound_pile(query: &[u8]) -> Bound {
    match taken_steps(query).map(|steps| frames_by_steps(&steps)) {
        Ok(Some(frames)) => {
            Bound { ground: NO_GROUND, place: 0, bounded: true, frames: frames as u32 }
        }
        Ok(None) => Bound { ground: NO_GROUND, place: 0, bounded: false, frames: MAX_FRAMES },
        Err(Refusal { ground, place }) => Bound { ground, place, bounded: false, frames: 0 },
    }
}
