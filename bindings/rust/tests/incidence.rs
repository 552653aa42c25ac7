//! The faces of a complex and what lies in what, held to the vertices.
use cjapthumi::Complex;
use cjapthumi::foliation::{EdgeType, foliated_hypercubic};

/// The choices of two, three or four out of five, in the order of combinations.
fn choices<const N: usize>() -> Vec<[usize; N]> {
    let chosen = |set: &u32| (0..5).filter(|v| set >> v & 1 == 1).collect::<Vec<usize>>();
    let mut choices: Vec<[usize; N]> = (0..32).map(|set| chosen(&set)).filter_map(|c| c.try_into().ok()).collect();
    choices.sort();
    choices
}

/// Whether all of some vertices are among others.
fn lies(face: &[usize], of: &[usize]) -> bool {
    face.iter().all(|vertex| of.contains(vertex))
}

/// The numbers of the faces in which a face lies.
fn holding<const N: usize>(face: &[usize], faces: &[[usize; N]]) -> Vec<usize> {
    (0..faces.len()).filter(|&number| lies(face, &faces[number])).collect()
}

/// Holds all that a complex tells to its pentachorons.
fn check(complex: &Complex) {
    let (edges, tris, pents) = (&complex.edges, &complex.triangles, &complex.pents);
    assert_eq!([edges.len(), tris.len(), pents.len()], [complex.n_edges(), complex.n_triangles(), complex.n_pents()]);
    let lengths: Vec<f64> = (0..edges.len()).map(|edge| edge as f64).collect();
    for (pent, vertices) in pents.iter().enumerate() {
        let found = complex.pent_edge_indices(pent).map(|edge| edges[edge]);
        assert!(found.iter().eq(&choices().iter().map(|c: &[usize; 2]| c.map(|v| vertices[v])).collect::<Vec<_>>()));
        let found = complex.pent_tri_indices(pent).map(|tri| tris[tri]);
        assert!(found.iter().eq(&choices().iter().map(|c: &[usize; 3]| c.map(|v| vertices[v])).collect::<Vec<_>>()));
        assert!(choices().iter().all(|c: &[usize; 4]| complex.tet_index.contains_key(&c.map(|v| vertices[v]))));
        assert_eq!(complex.pent_edge_lengths(pent, &lengths).map(|s| s as usize), complex.pent_edge_indices(pent));
    }
    for (tri, &[a, b, c]) in tris.iter().enumerate() {
        assert_eq!(complex.tri_index[&[a, b, c]], tri);
        assert_eq!(complex.tri_edge_indices(tri).map(|edge| edges[edge]), [[a, b], [a, c], [b, c]]);
        assert_eq!(complex.tri_edge_lengths(tri, &lengths).map(|s| s as usize), complex.tri_edge_indices(tri));
        assert_eq!(complex.tri_to_pents[tri], holding(&[a, b, c], pents));
    }
    for (edge, ends) in edges.iter().enumerate() {
        assert_eq!(complex.edge_index[ends], edge);
        assert_eq!(complex.edge_to_tris[edge], holding(ends, tris));
        assert_eq!(complex.edge_to_pents[edge], holding(ends, pents));
    }
    for (tet, vertices) in complex.tets.iter().enumerate() {
        assert_eq!(complex.tet_index[vertices], tet);
        assert!(pents.iter().any(|pent| lies(vertices, pent)));
    }
}

#[test]
fn of_a_few_pentachorons() {
    let pents = [[9, 1, 2, 3, 4], [1, 2, 3, 4, 5], [7, 5, 3, 1, 2], [4, 3, 2, 1, 9], [2, 6, 7, 8, 9]];
    let complex = Complex::from_pentachorons(10, &pents).unwrap();
    check(&complex);
    assert_eq!((complex.n_vertices, complex.pents[2]), (10, [1, 2, 3, 5, 7]));
    assert_eq!(complex.edges[..4], [[1, 2], [1, 3], [1, 4], [1, 9]]);
    assert_eq!(complex.edge_to_tris.get(complex.n_edges()), None);
}

#[test]
fn of_no_pentachorons() {
    let complex = Complex::from_pentachorons(1, &[]).unwrap();
    check(&complex);
    assert!(complex.tri_to_pents.is_empty() && complex.tets.is_empty());
}

#[test]
fn numbers_of_edges_as_a_map() {
    let pents = [[0, 1, 2, 3, 4], [1, 2, 3, 4, 5]];
    let [complex, other] = [&pents[..], &pents[..1]].map(|pents| Complex::from_pentachorons(6, pents).unwrap());
    let walked: Vec<_> = (&complex.edge_index).into_iter().map(|(&edge, &number)| (edge, number)).collect();
    assert!(walked.is_sorted() && walked.len() == 14);
    assert!(walked.into_iter().all(|(edge, number)| complex.edges[number] == edge));
    assert!(complex.edge_index == complex.clone().edge_index && complex.edge_index != other.edge_index);
    assert_eq!(format!("{:?}", other.tet_index), format!("{:?}", *other.tet_index));
}

#[test]
fn of_a_lattice() {
    let lattice = foliated_hypercubic(3, 2).unwrap();
    check(&lattice.complex);
    assert_eq!((lattice.n_slices, lattice.n_spatial, lattice.vertices_per_slice), (3, 2, 8));
    for (&[a, b], &kind) in lattice.complex.edges.iter().zip(&lattice.edge_types) {
        let expected = match (a % 3 == b % 3, a / 3 == b / 3) {
            (true, _) => EdgeType::Spatial,
            (_, true) => EdgeType::Timelike,
            _ => EdgeType::Diagonal,
        };
        assert_eq!(kind, expected);
    }
}

#[test]
fn of_slices() {
    let lattice = foliated_hypercubic(3, 2).unwrap();
    assert_eq!(lattice.vertex_map.len(), lattice.n_slices);
    for (slice, vertices) in lattice.vertex_map.iter().enumerate() {
        assert_eq!(vertices.len(), lattice.vertices_per_slice);
        for (local, &vertex) in vertices.iter().enumerate() {
            let (x, y, z) = (local % 2, local / 2 % 2, local / 4);
            assert_eq!(vertex, slice + 3 * (x + 2 * (y + 2 * z)));
            assert_eq!(lattice.global_vertex(slice, local), vertex);
            assert_eq!((lattice.vertex_slice(vertex), lattice.vertex_local(vertex)), (slice, local));
            let edges = lattice.complex.edges.iter().filter(|edge| edge.contains(&vertex));
            let others = edges.map(|&[a, b]| a + b - vertex).filter(|&other| lattice.vertex_slice(other) == slice);
            assert!(lattice.spatial_neighbors(vertex).into_iter().eq(others));
        }
    }
}
