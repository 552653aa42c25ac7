//! The pentachorons of the periodic lattice, in the order of the loops z, y, x, t, the first of equals kept.
use crate::{Complex, Pent};
use phyz_regge::complex::SimplicialComplex;
use phyz_regge::foliation::{FoliatedComplex, flat_minkowski_sq_lengths};
use std::collections::HashSet;

/// The orders of the four axes, as the Rust's `permute` gives them.
fn orders() -> Vec<[usize; 4]> {
    let mut orders = Vec::new();
    for swaps in 0..24 {
        let mut order = [0, 1, 2, 3];
        order.swap(0, swaps / 6);
        order.swap(1, 1 + swaps / 2 % 3);
        order.swap(2, 2 + swaps % 2);
        orders.push(order);
    }
    orders
}

/// The lattice of n_t time steps and n_s points an axis; a vertex is t + n_t (x + n_s (y + n_s z)).
pub fn lattice(n_t: usize, n_s: usize) -> Complex {
    let vertex = |[t, x, y, z]: [usize; 4]| t % n_t + n_t * (x % n_s + n_s * (y % n_s + n_s * (z % n_s)));
    let n_vertices = n_t * n_s * n_s * n_s;
    let (mut seen, mut pents) = (HashSet::new(), Vec::new());
    for cell in 0..n_vertices {
        let space = cell / n_t;
        for order in orders() {
            let mut at = [cell % n_t, space % n_s, space / n_s % n_s, space / (n_s * n_s)];
            let mut pent: Pent = [cell as u32; 5];
            for (step, axis) in order.into_iter().enumerate() {
                at[axis] += 1;
                pent[step + 1] = vertex(at) as u32;
            }
            pent.sort_unstable();
            if seen.insert(pent) {
                pents.push(pent);
            }
        }
    }
    (n_vertices, pents)
}

/// The Rust's flat squared lengths of what is built of the lattice of n_t time steps and n_s points an axis.
pub fn flat_lengths((n_t, n_s): (usize, usize), complex: &SimplicialComplex, spacing: f64, dt: f64) -> Vec<f64> {
    let (complex, vertices_per_slice) = (complex.clone(), n_s * n_s * n_s);
    let (edge_types, vertex_map) = (vec![], vec![]);
    let lattice =
        FoliatedComplex { complex, n_slices: n_t, vertices_per_slice, n_spatial: n_s, edge_types, vertex_map };
    flat_minkowski_sq_lengths(&lattice, spacing, dt)
}
