//! Roles of any kind.

use crate::paper::description::{Role, MOST_ROLES};
use crate::random::Random;

/// Mostly few roles; as many as may be if the description is to be the largest.
pub(super) fn random(r: &mut Random, largest: bool) -> Vec<Role> {
    let count = match r.below(20) {
        _ if largest => MOST_ROLES,
        0 => MOST_ROLES,
        1 => r.range(5, 15),
        _ => r.pick(&[1, 1, 2, 2, 3, 4]),
    };
    let transitive_in = r.pick(&[2, 4, 4, 8]);
    let mut roles = Vec::new();
    for i in 0..count {
        let mut parents = 0u16;
        for j in 0..count {
            // Mostly upward to earlier roles; now and then the own bit or a cycle.
            let often = if j < i { 3 } else { 15 };
            if r.one_in(often) {
                parents |= 1 << j;
            }
        }
        roles.push(Role {
            transitive: r.one_in(transitive_in),
            parents,
        });
    }
    roles
}
