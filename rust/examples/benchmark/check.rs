//! The check of a mesh, in Rust: corners chained by vertex for the twins, circulation for the fans.

use crate::access::Access;
use crate::limits::*;
use rusketja::{Counts, Mesh, Refusal, NO_TWIN};

/// The last half-edge from the vertex of the chain to q, plus 1, along the chain from `start` on; 0 for none.
#[inline(always)]
fn find<A: Access>(indices: &[u16], link: &[u16], start: u16, q: u16) -> u16 {
    let mut u = start;
    while u != 0 {
        let e = usize::from(u) - 1;
        if A::get(indices, turned(1, e)) == q {
            return u;
        }
        u = A::get(link, e);
    }
    0
}

/// Chains the corners at each vertex, from the last to the first; whether a half-edge occurs twice.
fn link_corners<A: Access>(indices: &[u16], head: &mut [u16], link: &mut [u16]) -> bool {
    for (c, &p) in indices.iter().enumerate() {
        let start = A::get(head, p.into());
        if find::<A>(indices, link, start, A::get(indices, turned(1, c))) != 0 {
            return true;
        }
        *A::at(link, c) = start;
        *A::at(head, p.into()) = (c + 1) as u16;
    }
    false
}

fn fill_twins<A: Access>(indices: &[u16], head: &[u16], link: &[u16], twins: &mut [u16]) {
    for (c, &q) in indices.iter().enumerate() {
        let p = A::get(indices, turned(1, c));
        // 0, "none", becomes NO_TWIN.
        *A::at(twins, c) = find::<A>(indices, link, A::get(head, p.into()), q).wrapping_sub(1);
    }
}

/// "No twin", where a corner is wanted.
const NO_CORNER: usize = NO_TWIN as usize;

/// The walk on from `start` about its vertex: how many corners it meets, and whether it comes back to `start`.
#[inline(always)]
fn walk_on<A: Access>(twins: &[u16], start: usize) -> (u16, bool) {
    let around = |c: usize| usize::from(A::get(twins, turned(3, c)));
    let mut met = 1;
    let mut c = around(start);
    while c != NO_CORNER {
        if c == start {
            return (met, true);
        }
        met += 1;
        c = around(c);
    }
    (met, false)
}

/// How many corners circulating about the vertex of `start` meets: on, and at the boundary back from `start` too.
fn circulate<A: Access>(twins: &[u16], start: usize) -> u16 {
    let (mut met, closed) = walk_on::<A>(twins, start);
    if closed {
        return met;
    }
    let back_around = |c: usize| match A::get(twins, c) {
        NO_TWIN => NO_CORNER,
        d => turned(1, d.into()),
    };
    let mut c = back_around(start);
    while c != NO_CORNER {
        met += 1;
        c = back_around(c);
    }
    met
}

fn early_refusal<A: Access>(mesh: &Mesh, twins: usize, head: &mut [u16], link: &mut [u16]) -> Option<Refusal> {
    let Mesh { vertices, faces, positions, tags, indices } = *mesh;
    if !VERTICES.contains(&vertices)
        || !FACES.contains(&faces)
        || positions.len() != 3 * vertices
        || tags.len() != vertices
        || indices.len() != 4 * faces
    {
        return Some(Refusal(1));
    }
    if twins < 4 * faces {
        return Some(Refusal(2));
    }
    if positions.iter().any(|x| MAX_COORDINATE < x.unsigned_abs()) {
        return Some(Refusal(3));
    }
    if tags.iter().any(|&tag| CORNER_TAG < tag) {
        return Some(Refusal(4));
    }
    if indices.iter().any(|&p| vertices <= p.into()) {
        return Some(Refusal(5));
    }
    let twice = |c: usize| (1..4).any(|i| A::get(indices, turned(i, c)) == A::get(indices, c));
    if (0..indices.len()).any(twice) {
        return Some(Refusal(6));
    }
    if link_corners::<A>(indices, head, link) {
        return Some(Refusal(7));
    }
    None
}

fn late_refusal<A: Access>(mesh: &Mesh, twins: &[u16], head: &[u16]) -> Option<Refusal> {
    let Mesh { vertices, tags, indices, .. } = *mesh;
    let mut valences = [0u16; MAX_VERTICES];
    for &p in indices {
        *A::at(&mut valences, p.into()) += 1;
    }
    if (0..vertices).any(|p| A::get(&valences, p) == 0) {
        return Some(Refusal(8));
    }
    let corner_at = |p: usize| usize::from(A::get(head, p)) - 1;
    if (0..vertices).any(|p| circulate::<A>(twins, corner_at(p)) != A::get(&valences, p)) {
        return Some(Refusal(9));
    }
    // The corners at every vertex form a fan, so whether it is closed is told from any of them; that is asked only where it matters.
    let on_boundary = |p: usize| !walk_on::<A>(twins, corner_at(p)).1;
    let valence_off = |p: usize| {
        let valence = A::get(&valences, p);
        let inner_off = !VALENCE.contains(&valence);
        if inner_off != BOUNDARY_FACES.contains(&valence) {
            return inner_off;
        }
        let range = if on_boundary(p) { BOUNDARY_FACES } else { VALENCE };
        !range.contains(&valence)
    };
    if (0..vertices).any(valence_off) {
        return Some(Refusal(10));
    }
    if (0..vertices).any(|p| A::get(tags, p) == CORNER_TAG && !on_boundary(p)) {
        return Some(Refusal(11));
    }
    None
}

/// Checks a whole mesh, as [`rusketja::check`] does.
#[inline(never)]
pub fn check<A: Access>(mesh: &Mesh, twins: &mut [u16]) -> Result<Counts, Refusal> {
    let mut head = [0u16; MAX_VERTICES];
    let mut link = [0u16; 4 * MAX_FACES];
    if let Some(refusal) = early_refusal::<A>(mesh, twins.len(), &mut head, &mut link) {
        return Err(refusal);
    }
    let n = 4 * mesh.faces;
    let twins = A::part_mut(twins, 0, n);
    fill_twins::<A>(mesh.indices, &head, &link, twins);
    if let Some(refusal) = late_refusal::<A>(mesh, twins, &head) {
        twins.fill(NO_TWIN);
        return Err(refusal);
    }
    let edges = twins.iter().enumerate().filter(|&(c, &d)| c < d.into()).count();
    Ok(Counts { vertices: mesh.vertices, faces: mesh.faces, edges, boundary: 2 * edges - n })
}
