//! The functions of `cjapthumi.h` and `cjapthumi_built.h`. Those over a complex take its ten lists as one argument, and have their names
//! without `cjapthumi_`.
//!
//! # Safety
//! For all of them: pointers are aligned and valid for the lengths beside them or for the arrays that the headers name, also those with
//! length 0; what a call may write overlaps nothing else that it is lent.

/// The counts and lists of a complex: each list is its start and its length.
#[derive(Clone, Copy)]
pub struct Lists {
    pub counts: *const usize,
    pub lists: [(*const u32, usize); 10],
}

/// A complex that `check_built` has accepted, and the numbers of each pentachoron's edges and triangles that it wrote.
#[derive(Clone, Copy)]
pub struct BuiltLists {
    pub lists: Lists,
    pub pent_edges: (*const u32, usize),
    pub pent_tris: (*const u32, usize),
}

/// Declares a function over a complex, with the arguments that come before and after the complex.
macro_rules! over_complex {
    ($(#[$text:meta])* $name:ident = $symbol:ident, [$($before:ident: $sort:ty),*], [$($after:ident: $kind:ty),*]) => {
        $(#[$text])*
        #[allow(clippy::missing_safety_doc, clippy::too_many_arguments)]
        pub unsafe fn $name($($before: $sort,)* complex: $crate::ffi::Lists, $($after: $kind),*) -> u32 {
            unsafe extern "C" {
                fn $symbol(
                    $($before: $sort,)*
                    counts: *const usize,
                    pents: *const u32,
                    pents_len: usize,
                    edges: *const u32,
                    edges_len: usize,
                    triangles: *const u32,
                    triangles_len: usize,
                    tets: *const u32,
                    tets_len: usize,
                    tri_to_pents_items: *const u32,
                    tri_to_pents_items_len: usize,
                    tri_to_pents_starts: *const u32,
                    tri_to_pents_starts_len: usize,
                    edge_to_tris_items: *const u32,
                    edge_to_tris_items_len: usize,
                    edge_to_tris_starts: *const u32,
                    edge_to_tris_starts_len: usize,
                    edge_to_pents_items: *const u32,
                    edge_to_pents_items_len: usize,
                    edge_to_pents_starts: *const u32,
                    edge_to_pents_starts_len: usize,
                    $($after: $kind),*
                ) -> u32;
            }
            let [l0, l1, l2, l3, l4, l5, l6, l7, l8, l9] = complex.lists;
            unsafe {
                $symbol(
                    $($before,)* complex.counts, l0.0, l0.1, l1.0, l1.1, l2.0, l2.1, l3.0, l3.1, l4.0, l4.1, l5.0, l5.1,
                    l6.0, l6.1, l7.0, l7.1, l8.0, l8.1, l9.0, l9.1, $($after),*
                )
            }
        }
    };
}

/// Declares cores: functions over a complex that is known to be built.
macro_rules! over_built {
    ($($(#[$text:meta])* $name:ident = $symbol:ident($($after:ident: $kind:ty),*);)+) => {$(
        $(#[$text])*
        #[allow(clippy::missing_safety_doc, clippy::too_many_arguments)]
        pub unsafe fn $name(complex: BuiltLists, $($after: $kind),*) -> u32 {
            over_complex! {
                core = $symbol, [],
                [
                    pent_edges: *const u32, pent_edges_len: usize, pent_tris: *const u32, pent_tris_len: usize,
                    $($after: $kind),*
                ]
            }
            let BuiltLists { lists, pent_edges, pent_tris } = complex;
            unsafe { core(lists, pent_edges.0, pent_edges.1, pent_tris.0, pent_tris.1, $($after),*) }
        }
    )+};
}

unsafe extern "C" {
    // ---- floats ----
    pub safe fn cjapthumi_root(x: f64) -> f64;
    pub safe fn cjapthumi_log(x: f64) -> f64;
    pub safe fn cjapthumi_log1p(x: f64) -> f64;
    pub safe fn cjapthumi_acos(x: f64) -> f64;
    pub safe fn cjapthumi_acosh(x: f64) -> f64;
    pub safe fn cjapthumi_asinh(x: f64) -> f64;

    // ---- one pentachoron ----
    pub fn cjapthumi_cofactor_6x6(m: *const f64, row: usize, col: usize, value: *mut f64) -> u32;
    pub fn cjapthumi_cm_matrix_signed(s: *const f64, m: *mut f64);
    pub fn cjapthumi_cm_cofactors(s: *const f64, c: *mut f64);
    pub safe fn cjapthumi_triangle_area_sq_lorentzian(s01: f64, s02: f64, s12: f64) -> f64;
    pub fn cjapthumi_triangle_area_sq_grad(s01: f64, s02: f64, s12: f64, grad: *mut f64);
    pub fn cjapthumi_tri_area_sq_grad_in_pent(s: *const f64, tri: *const usize, grad: *mut f64) -> u32;
    pub fn cjapthumi_compute_dihedral(c_lm: f64, c_ll: f64, c_mm: f64, value: *mut f64) -> u8;
    pub fn cjapthumi_lorentzian_dihedral(s: *const f64, l: usize, m: usize, value: *mut f64, kind: *mut u8) -> u32;
    pub fn cjapthumi_all_lorentzian_dihedrals(s: *const f64, values: *mut f64, kinds: *mut u8);
    pub fn cjapthumi_all_lorentzian_dihedrals_jacobian(s: *const f64, eps: f64, jac: *mut f64);

    // ---- lattices and lengths ----
    pub fn cjapthumi_foliated_hypercubic(
        n_t: usize,
        n_s: usize,
        pents: *mut u32,
        pents_len: usize,
        count: *mut usize,
    ) -> u32;
    pub fn cjapthumi_length_signs(sq_lengths: *const f64, sq_lengths_len: usize, signs: *mut usize);
}

/// Builds the complex of a list of pentachorons.
#[allow(clippy::missing_safety_doc)]
pub unsafe fn from_pentachorons(
    n_vertices: usize,
    given: (*const u32, usize),
    lists: [(*mut u32, usize); 10],
    counts: *mut usize,
    place: *mut usize,
) -> u32 {
    unsafe extern "C" {
        fn cjapthumi_from_pentachorons(
            n_vertices: usize,
            given: *const u32,
            given_len: usize,
            pents: *mut u32,
            pents_len: usize,
            edges: *mut u32,
            edges_len: usize,
            triangles: *mut u32,
            triangles_len: usize,
            tets: *mut u32,
            tets_len: usize,
            tri_to_pents_items: *mut u32,
            tri_to_pents_items_len: usize,
            tri_to_pents_starts: *mut u32,
            tri_to_pents_starts_len: usize,
            edge_to_tris_items: *mut u32,
            edge_to_tris_items_len: usize,
            edge_to_tris_starts: *mut u32,
            edge_to_tris_starts_len: usize,
            edge_to_pents_items: *mut u32,
            edge_to_pents_items_len: usize,
            edge_to_pents_starts: *mut u32,
            edge_to_pents_starts_len: usize,
            counts: *mut usize,
            place: *mut usize,
        ) -> u32;
    }
    let [l0, l1, l2, l3, l4, l5, l6, l7, l8, l9] = lists;
    unsafe {
        cjapthumi_from_pentachorons(
            n_vertices, given.0, given.1, l0.0, l0.1, l1.0, l1.1, l2.0, l2.1, l3.0, l3.1, l4.0, l4.1, l5.0, l5.1, l6.0,
            l6.1, l7.0, l7.1, l8.0, l8.1, l9.0, l9.1, counts, place,
        )
    }
}

over_complex! {
    /// Whether counts and lists are a built complex; writes the numbers of each pentachoron's edges and triangles.
    check_built = cjapthumi_check_built, [],
    [pent_edges: *mut u32, pent_edges_len: usize, pent_tris: *mut u32, pent_tris_len: usize]
}

over_complex! {
    /// Writes the type of each edge of a lattice's complex.
    edge_types = cjapthumi_edge_types, [n_t: usize, n_s: usize], [types: *mut u8, types_len: usize]
}

over_complex! {
    /// Writes the squared lengths of a lattice's edges in flat Minkowski space.
    flat_minkowski_sq_lengths = cjapthumi_flat_minkowski_sq_lengths, [n_t: usize, n_s: usize],
    [spacing: f64, dt: f64, sq_lengths: *mut f64, sq_lengths_len: usize]
}

over_built! {
    /// Writes the deficit and the kind of each triangle.
    lorentzian_deficit_angles_built = cjapthumi_lorentzian_deficit_angles_built(
        sq_lengths: *const f64, sq_lengths_len: usize, deficits: *mut f64, deficits_len: usize, kinds: *mut u8, kinds_len: usize
    );

    /// Writes the deficit and the kind of one triangle.
    lorentzian_deficit_angle_built = cjapthumi_lorentzian_deficit_angle_built(
        sq_lengths: *const f64, sq_lengths_len: usize, tri: u32, deficit: *mut f64, kind: *mut u8
    );

    /// Writes the action.
    lorentzian_regge_action_built = cjapthumi_lorentzian_regge_action_built(
        sq_lengths: *const f64, sq_lengths_len: usize, action: *mut f64
    );

    /// Writes the action's derivative by each squared length.
    lorentzian_regge_action_grad_built = cjapthumi_lorentzian_regge_action_grad_built(
        sq_lengths: *const f64, sq_lengths_len: usize, grad: *mut f64, grad_len: usize
    );

    /// Writes the numbers, deficits and kinds of the triangles on free edges, and how many there are.
    local_deficit_angles_built = cjapthumi_local_deficit_angles_built(
        sq_lengths: *const f64, sq_lengths_len: usize, free_edges: *const u32, free_edges_len: usize,
        tris: *mut u32, tris_len: usize, deficits: *mut f64, deficits_len: usize, kinds: *mut u8, kinds_len: usize,
        count: *mut usize
    );

    /// Writes the gradient's entry of each free edge.
    local_lorentzian_regge_action_grad_built = cjapthumi_local_lorentzian_regge_action_grad_built(
        sq_lengths: *const f64, sq_lengths_len: usize, free_edges: *const u32, free_edges_len: usize,
        grad: *mut f64, grad_len: usize
    );

    /// Writes the Hessian at free edges, row after row.
    local_lorentzian_regge_hessian_built = cjapthumi_local_lorentzian_regge_hessian_built(
        sq_lengths: *const f64, sq_lengths_len: usize, free_edges: *const u32, free_edges_len: usize, fd_eps: f64,
        hessian: *mut f64, hessian_len: usize
    );

    /// Stores a squared length at an edge and works out anew the triangles of its pentachorons.
    retouch_built = cjapthumi_retouch_built(
        sq_lengths: *mut f64, sq_lengths_len: usize, edge: u32, sq_length: f64,
        deficits: *mut f64, deficits_len: usize, kinds: *mut u8, kinds_len: usize
    );
}
