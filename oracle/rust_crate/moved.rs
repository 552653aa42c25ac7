// A group's program over phyz-regge. Its text is compiled twice, with the Rust and with our crate, which are `regge`; only `given`, which
// takes an answer out of a call that can be refused, differs: there a program that moves gets a `?`.
use self::regge::complex::SimplicialComplex;
use self::regge::foliation::{EdgeType, flat_minkowski_sq_lengths, foliated_hypercubic};
use self::regge::geometry::cofactor_6x6;
use self::regge::lorentzian::{
    HingeType, all_lorentzian_dihedrals, all_lorentzian_dihedrals_jacobian, cm_matrix_signed, lorentzian_dihedral,
    tri_area_sq_grad_in_pent, triangle_area_sq_grad, triangle_area_sq_lorentzian,
};
use self::regge::lorentzian_regge::{
    local_deficit_angles, local_lorentzian_regge_action_grad, local_lorentzian_regge_hessian,
    lorentzian_deficit_angles, lorentzian_regge_action, lorentzian_regge_action_grad,
};
use std::collections::BTreeMap;

/// How far a descent goes along the gradient at each of its steps.
const STEP: f64 = 1e-3;

/// What stands for a hinge's kind.
fn kind(kind: HingeType) -> f64 {
    match kind {
        HingeType::Spacelike => 0.0,
        HingeType::Timelike => 1.0,
    }
}

/// How long the longest of some lists is.
fn longest(lists: &[Vec<usize>]) -> usize {
    lists.iter().map(Vec::len).max().unwrap_or(0)
}

/// All that a complex has in its fields, as lists.
pub fn fields(complex: &SimplicialComplex) -> Vec<Vec<usize>> {
    let mut fields = vec![
        vec![complex.n_vertices, complex.n_edges(), complex.n_triangles(), complex.n_pents()],
        complex.edges.as_flattened().to_vec(),
        complex.triangles.as_flattened().to_vec(),
        complex.tets.as_flattened().to_vec(),
        complex.pents.as_flattened().to_vec(),
        complex.edges.iter().map(|edge| complex.edge_index[edge]).collect(),
        complex.triangles.iter().map(|tri| complex.tri_index[tri]).collect(),
        complex.tets.iter().map(|tet| complex.tet_index[tet]).collect(),
        vec![complex.edge_index.len(), complex.tri_index.len(), complex.tet_index.len()],
    ];
    let numbers: BTreeMap<_, _> = complex.edge_index.iter().collect();
    fields.push(numbers.into_iter().flat_map(|(&[a, b], &edge)| [a, b, edge]).collect());
    for &[a, b] in &complex.edges {
        fields.push([[a, b], [b, a]].map(|edge| usize::from(complex.edge_index.contains_key(&edge))).to_vec());
    }
    for lists in [&complex.tri_to_pents, &complex.edge_to_tris, &complex.edge_to_pents] {
        fields.push(vec![lists.len(), longest(lists)]);
        fields.extend(lists.clone());
    }
    for pent in 0..complex.n_pents() {
        fields.push(complex.pent_edge_indices(pent).to_vec());
    }
    for tri in 0..complex.n_triangles() {
        fields.push(complex.tri_edge_indices(tri).to_vec());
    }
    fields
}

/// All that the complex of some pentachorons has in its fields.
pub fn built(n_vertices: usize, pents: &[[usize; 5]]) -> Vec<Vec<usize>> {
    fields(&given(SimplicialComplex::from_pentachorons(n_vertices, pents)))
}

/// What a lattice tells of its slices and of the types of its edges, and the flat squared lengths; edges come by their vertices.
pub fn slices((n_t, n_s): (usize, usize), spacing: f64, dt: f64) -> (Vec<Vec<usize>>, Vec<f64>) {
    let lattice = &given(foliated_hypercubic(n_t, n_s));
    let mut told = vec![vec![lattice.n_slices, lattice.n_spatial, lattice.vertices_per_slice]];
    told.extend(lattice.vertex_map.iter().cloned());
    for (slice, locals) in lattice.vertex_map.iter().enumerate() {
        for local in 0..locals.len() {
            let vertex = lattice.global_vertex(slice, local);
            let mut neighbors = lattice.spatial_neighbors(vertex);
            neighbors.sort_unstable();
            told.push([&[vertex, lattice.vertex_slice(vertex), lattice.vertex_local(vertex)], &neighbors[..]].concat());
        }
    }
    let edges: BTreeMap<_, _> = lattice.complex.edges.iter().zip(0usize..).collect();
    for (&&[a, b], &edge) in &edges {
        let kind = match lattice.edge_types[edge] {
            EdgeType::Spatial => 0,
            EdgeType::Timelike => 1,
            EdgeType::Diagonal => 2,
        };
        told.push(vec![a, b, kind]);
    }
    let lengths = flat_minkowski_sq_lengths(lattice, spacing, dt);
    (told, edges.into_values().map(|edge| lengths[edge]).collect())
}

/// The geometry of a complex's pentachorons, and areas and area gradients of its triangles.
pub fn geometry(complex: &SimplicialComplex, sq_lengths: &[f64]) -> Vec<f64> {
    let mut numbers = Vec::new();
    for pent in 0..complex.n_pents() {
        let s = complex.pent_edge_lengths(pent, sq_lengths);
        numbers.push(given(cofactor_6x6(&cm_matrix_signed(&s), 1 + pent % 5, 1 + pent % 3)));
        numbers.extend(given(tri_area_sq_grad_in_pent(&s, [0, 1 + pent % 2, 3])));
        let (value, sort) = given(lorentzian_dihedral(&s, pent % 4, 4));
        numbers.extend([value, kind(sort)]);
        numbers.extend(all_lorentzian_dihedrals(&s).iter().flat_map(|&(value, sort)| [value, kind(sort)]));
        if pent == 0 {
            numbers.extend(all_lorentzian_dihedrals_jacobian(&s, STEP).as_flattened());
        }
    }
    for tri in 0..complex.n_triangles() {
        let [s01, s02, s12] = complex.tri_edge_lengths(tri, sq_lengths);
        numbers.push(triangle_area_sq_lorentzian(s01, s02, s12));
        numbers.extend(triangle_area_sq_grad(s01, s02, s12));
    }
    numbers
}

/// Some steps of a descent over free edges: after each the action, the squared gradient, and the hinges around the first edge.
pub fn descent(complex: &SimplicialComplex, mut sq_lengths: Vec<f64>, free: &[usize], steps: usize) -> Vec<f64> {
    let mut told = Vec::new();
    for _ in 0..steps {
        let grad = given(local_lorentzian_regge_action_grad(complex, &sq_lengths, free));
        for (&edge, entry) in free.iter().zip(&grad) {
            sq_lengths[edge] -= STEP * entry;
        }
        told.push(given(lorentzian_regge_action(complex, &sq_lengths)));
        told.push(given(lorentzian_regge_action_grad(complex, &sq_lengths)).iter().map(|entry| entry * entry).sum());
        let hinges = given(local_deficit_angles(complex, &sq_lengths, free));
        for tri in free.first().into_iter().flat_map(|&edge| &complex.edge_to_tris[edge]) {
            let (deficit, sort) = hinges[tri];
            told.extend([deficit, kind(sort), complex.tri_to_pents[*tri].len() as f64]);
        }
    }
    told.extend(given(lorentzian_deficit_angles(complex, &sq_lengths)).iter().map(|(deficit, _)| deficit));
    told
}

/// The Hessian at free edges applied to their gradient.
pub fn newton(complex: &SimplicialComplex, sq_lengths: &[f64], free: &[usize], fd_eps: f64) -> Vec<f64> {
    let residual = given(local_lorentzian_regge_action_grad(complex, sq_lengths, free));
    let hessian = given(local_lorentzian_regge_hessian(complex, sq_lengths, free, fd_eps));
    let row = |i: usize| (0..free.len()).map(|j| hessian[(i, j)] * residual[j]).sum();
    (0..free.len()).map(row).collect()
}
