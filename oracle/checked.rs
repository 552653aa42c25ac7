//! Our library's calls over hinges that check the complex. The macro is that of bindings/rust/src/ffi.rs, which declares all else.

over_complex! {
    /// Writes the deficit and the kind of each triangle.
    lorentzian_deficit_angles = cjapthumi_lorentzian_deficit_angles, [],
    [
        sq_lengths: *const f64, sq_lengths_len: usize, deficits: *mut f64, deficits_len: usize, kinds: *mut u8,
        kinds_len: usize
    ]
}

over_complex! {
    /// Writes the deficit and the kind of one triangle.
    lorentzian_deficit_angle = cjapthumi_lorentzian_deficit_angle, [],
    [sq_lengths: *const f64, sq_lengths_len: usize, tri: u32, deficit: *mut f64, kind: *mut u8]
}

over_complex! {
    /// Writes the action.
    lorentzian_regge_action = cjapthumi_lorentzian_regge_action, [],
    [sq_lengths: *const f64, sq_lengths_len: usize, action: *mut f64]
}

over_complex! {
    /// Writes the action's derivative by each squared length.
    lorentzian_regge_action_grad = cjapthumi_lorentzian_regge_action_grad, [],
    [sq_lengths: *const f64, sq_lengths_len: usize, grad: *mut f64, grad_len: usize]
}

over_complex! {
    /// Writes the numbers, deficits and kinds of the triangles on free edges, and how many there are.
    local_deficit_angles = cjapthumi_local_deficit_angles, [],
    [
        sq_lengths: *const f64, sq_lengths_len: usize, free_edges: *const u32, free_edges_len: usize, tris: *mut u32,
        tris_len: usize, deficits: *mut f64, deficits_len: usize, kinds: *mut u8, kinds_len: usize, count: *mut usize
    ]
}

over_complex! {
    /// Writes the gradient's entry of each free edge.
    local_lorentzian_regge_action_grad = cjapthumi_local_lorentzian_regge_action_grad, [],
    [
        sq_lengths: *const f64, sq_lengths_len: usize, free_edges: *const u32, free_edges_len: usize, grad: *mut f64,
        grad_len: usize
    ]
}

over_complex! {
    /// Writes the Hessian at free edges, row after row.
    local_lorentzian_regge_hessian = cjapthumi_local_lorentzian_regge_hessian, [],
    [
        sq_lengths: *const f64, sq_lengths_len: usize, free_edges: *const u32, free_edges_len: usize, fd_eps: f64,
        hessian: *mut f64, hessian_len: usize
    ]
}

over_complex! {
    /// Stores a squared length at an edge and works out anew the triangles of its pentachorons.
    retouch = cjapthumi_retouch, [],
    [
        sq_lengths: *mut f64, sq_lengths_len: usize, edge: u32, sq_length: f64, deficits: *mut f64,
        deficits_len: usize, kinds: *mut u8, kinds_len: usize
    ]
}
