/*
 * The library's functions for C: floats, the geometry of one pentachoron, complexes, lattices, hinges, action, gradient, Hessian and
 * retouch. Link target/staticlib/libexports.a, which `bindings/build` proves and builds for x86-64 Linux; it needs nothing but
 * memcpy and memset.
 *
 * What a caller keeps
 * - A list is a pointer and then its length, in elements. No pointer is null, not even one with length 0; each is aligned for its type
 *   and valid for the whole length or the array's size.
 * - What a call may write (a pointer with no `const`) overlaps nothing else that the call is lent. What it only reads may overlap, and
 *   nothing changes it during the call.
 * - The floating-point environment is the one in which C starts: rounding to nearest, subnormals kept. A program that is linked with
 *   -ffast-math does not start in it.
 * - Stack: a call takes up to 1.69 MiB. from_pentachorons takes 1.69 MiB, local_lorentzian_regge_hessian 1.34,
 *   lorentzian_regge_action, lorentzian_regge_action_grad and local_lorentzian_regge_action_grad 1.34, foliated_hypercubic 0.32, the
 *   other calls over a complex 1.07, the others less than 8 KiB.
 *
 * What a call keeps
 * - It answers at every input, NaN and infinite lengths too, with the same bits each time, or it refuses. There is no state between
 *   calls, and threads may call at the same time.
 * - A refusal is the number that is returned, with its place. Only cjapthumi_from_pentachorons has places other than 0 and gives them;
 *   the place of every other refusal is 0. An answer returns 0. Where several conditions are broken, the one that stands first in a
 *   function's comment is returned.
 * - A refused call leaves every buffer as it was, but for the `place` of cjapthumi_from_pentachorons. An answer writes the beginning of
 *   a list and keeps the rest: lists may be longer than they need to be.
 * - A NaN's sign and payload are not promised.
 *
 * A complex
 * - It has five counts, in the order of enum cjapthumi_count, and ten lists: the vertices of the pentachorons, 5 each, ascending; those
 *   of the edges, 2 each, of the triangles, 3 each, and of the tets, 4 each, numbered by first meeting; then the numbers of the
 *   pentachorons in which each triangle lies, of the triangles in which each edge lies and of the pentachorons in which each edge lies.
 *   Of each of these three, `items` has one ascending list after the other, and list k is items[starts[k]] to items[starts[k + 1] - 1].
 * - Counts and lists that differ from what cjapthumi_from_pentachorons writes for their vertex count and pentachorons are refused with
 *   7, by every call over a complex; what follows in a longer list is not looked at. That check takes most of the time of a small
 *   local call; cjapthumi_built.h has the calls without it.
 * - Squared lengths are in edge order, as many as there are edges: timelike below zero, null zero, spacelike above.
 * - Ten squared lengths of one pentachoron are those of its edges 01, 02, 03, 04, 12, 13, 14, 23, 24, 34.
 */
#ifndef CJAPTHUMI_H
#define CJAPTHUMI_H

#include <stddef.h>
#include <stdint.h>

#ifdef __cplusplus
extern "C" {
#endif

/* The refusals that functions return. 12 and 13 are the program's. */
enum cjapthumi_refusal {
    CJAPTHUMI_DONE = 0,
    CJAPTHUMI_VERTEX_COUNT = 1,     /* the vertex count is 0 or above 4,096 */
    CJAPTHUMI_LIST_LENGTH = 2,      /* the length of the pentachoron list is no multiple of 5, or above 40,960 */
    CJAPTHUMI_VERTEX_TOO_LARGE = 3, /* a vertex of the pentachoron at the place is not below the vertex count */
    CJAPTHUMI_REPEATED_VERTEX = 4,  /* the pentachoron at the place has a vertex twice */
    CJAPTHUMI_SHORT_ROOM = 5,       /* a list that is to be written is too short */
    CJAPTHUMI_LATTICE_SIZE = 6,     /* n_t or n_s is not from 2 to 8, or n_t * n_s^3 is above 341 */
    CJAPTHUMI_NOT_BUILT = 7,        /* the counts or lists are not those of a built complex, or not of that lattice's */
    CJAPTHUMI_LENGTH_COUNT = 8,     /* there are not as many squared lengths as edges */
    CJAPTHUMI_EDGE_TOO_LARGE = 9,   /* an edge number is not below the number of edges */
    CJAPTHUMI_REPEATED_EDGE = 10,   /* a free edge stands twice */
    CJAPTHUMI_BAD_INDEX = 11        /* a row, a column, a vertex of a pentachoron or a triangle number is out of range, or two vertices
                                       are the same */
};

/* The kind of a hinge or a dihedral, as a byte. */
enum cjapthumi_kind {
    CJAPTHUMI_SPACELIKE = 0, /* the number is an angle */
    CJAPTHUMI_TIMELIKE = 1   /* the number is a boost */
};

/* The type of a lattice's edge, as a byte. */
enum cjapthumi_edge_type {
    CJAPTHUMI_EDGE_SPATIAL = 0,  /* no step in time */
    CJAPTHUMI_EDGE_TIMELIKE = 1, /* a step in time alone */
    CJAPTHUMI_EDGE_DIAGONAL = 2  /* both */
};

/* The order of the five counts. */
enum cjapthumi_count {
    CJAPTHUMI_VERTICES = 0,
    CJAPTHUMI_PENTACHORONS = 1,
    CJAPTHUMI_EDGES = 2,
    CJAPTHUMI_TRIANGLES = 3,
    CJAPTHUMI_TETS = 4
};

/* ---- floats ---- */

/* The square root, the nearest double: NaN for NaN and below zero; +0, -0 and +infinity are kept. */
double cjapthumi_root(double x);

/* fdlibm 5.3's natural logarithm. */
double cjapthumi_log(double x);

/* fdlibm 5.3's logarithm of 1 + x. */
double cjapthumi_log1p(double x);

/* fdlibm 5.3's arc cosine. */
double cjapthumi_acos(double x);

/* fdlibm 5.3's inverse hyperbolic cosine. */
double cjapthumi_acosh(double x);

/* fdlibm 5.3's inverse hyperbolic sine. */
double cjapthumi_asinh(double x);

/* The absolute value. */
double cjapthumi_abs(double x);

/* 1 with the sign of x, also for a zero; NaN for NaN. */
double cjapthumi_signum(double x);

/* x between -1 and 1: the nearer bound for a number beyond; NaN for NaN. */
double cjapthumi_clamp_unit(double x);

/* ---- one pentachoron ---- */

/* Writes the cofactor of a 6 by 6 matrix at a row and a column to `value`. Refuses 11 where either is above 5. */
uint32_t cjapthumi_cofactor_6x6(const double m[6][6], size_t row, size_t col, double *value);

/* Writes the Cayley-Menger matrix of ten squared lengths to `m`; its row 0 and column 0 are the border of ones. */
void cjapthumi_cm_matrix_signed(const double s[10], double m[6][6]);

/* Writes that matrix's cofactors of rows and columns 1 to 5 to `c`: (1,1), (1,2) to (1,5), (2,2) to (2,5) and so on to (5,5). */
void cjapthumi_cm_cofactors(const double s[10], double c[15]);

/* The squared area of a triangle of squared lengths 01, 02, 12. */
double cjapthumi_triangle_area_sq_lorentzian(double s01, double s02, double s12);

/* Writes its derivatives by the three squared lengths to `grad`. */
void cjapthumi_triangle_area_sq_grad(double s01, double s02, double s12, double grad[3]);

/*
 * Writes the derivatives of the squared area of a pentachoron's triangle by the ten squared lengths to `grad`; `tri` has its three
 * vertices, in any order. Refuses 11 where one is above 4 or two are the same.
 */
uint32_t cjapthumi_tri_area_sq_grad_in_pent(const double s[10], const size_t tri[3], double grad[10]);

/*
 * Writes the dihedral of three cofactors to `value` and returns its kind: the rule of the hinges, by which a product c_ll * c_mm below
 * 1e-60 in size gives 0, Spacelike. Refuses nothing.
 */
uint8_t cjapthumi_compute_dihedral(double c_lm, double c_ll, double c_mm, double *value);

/*
 * Writes the dihedral at the triangle opposite the edge of the vertices l and m, and its kind: the rule of the Jacobian, by which a root
 * below 1e-30 gives 0, Spacelike where the product is positive, else Timelike. Refuses 11 where l or m is above 4 or they are the same.
 */
uint32_t cjapthumi_lorentzian_dihedral(const double s[10], size_t l, size_t m, double *value, uint8_t *kind);

/* Writes these dihedrals and kinds for the ten pairs l, m in the order of the edges. */
void cjapthumi_all_lorentzian_dihedrals(const double s[10], double values[10], uint8_t kinds[10]);

/* Writes their derivatives by central differences with the step eps: that of dihedral k by squared length e at jac[10 * k + e]. */
void cjapthumi_all_lorentzian_dihedrals_jacobian(const double s[10], double eps, double jac[100]);

/* ---- complexes ---- */

/*
 * Builds the complex of a list of pentachorons, five vertices each, in any order; a repeated pentachoron stays. With P pentachorons the
 * ten lists need 5P, 20P, 30P, 20P, 10P, 10P + 1, 30P, 10P + 1, 10P and 10P + 1 places; of starts, as many as faces and one more are
 * written. `counts` gets the five counts. `place` gets the place in every case: the number of the pentachoron for 3 and 4, else 0.
 * Refuses 1, 2, 5, and then, for the earliest pentachoron that has it, 3 before 4.
 */
uint32_t cjapthumi_from_pentachorons(
    size_t n_vertices,
    const uint32_t *given, size_t given_len,
    uint32_t *pents, size_t pents_len,
    uint32_t *edges, size_t edges_len,
    uint32_t *triangles, size_t triangles_len,
    uint32_t *tets, size_t tets_len,
    uint32_t *tri_to_pents_items, size_t tri_to_pents_items_len,
    uint32_t *tri_to_pents_starts, size_t tri_to_pents_starts_len,
    uint32_t *edge_to_tris_items, size_t edge_to_tris_items_len,
    uint32_t *edge_to_tris_starts, size_t edge_to_tris_starts_len,
    uint32_t *edge_to_pents_items, size_t edge_to_pents_items_len,
    uint32_t *edge_to_pents_starts, size_t edge_to_pents_starts_len,
    size_t counts[5],
    size_t *place);

/*
 * Whether counts and lists are a built complex. Writes the numbers of each pentachoron's ten edges and of its ten triangles to
 * `pent_edges` and `pent_tris`, in the order of combinations of its vertices: both need 10P places. Refuses 7, 5.
 */
uint32_t cjapthumi_check_built(
    const size_t counts[5],
    const uint32_t *pents, size_t pents_len,
    const uint32_t *edges, size_t edges_len,
    const uint32_t *triangles, size_t triangles_len,
    const uint32_t *tets, size_t tets_len,
    const uint32_t *tri_to_pents_items, size_t tri_to_pents_items_len,
    const uint32_t *tri_to_pents_starts, size_t tri_to_pents_starts_len,
    const uint32_t *edge_to_tris_items, size_t edge_to_tris_items_len,
    const uint32_t *edge_to_tris_starts, size_t edge_to_tris_starts_len,
    const uint32_t *edge_to_pents_items, size_t edge_to_pents_items_len,
    const uint32_t *edge_to_pents_starts, size_t edge_to_pents_starts_len,
    uint32_t *pent_edges, size_t pent_edges_len,
    uint32_t *pent_tris, size_t pent_tris_len);

/* ---- lattices ---- */

/*
 * Writes the pentachorons of the periodic lattice of n_t * n_s^3 cells to `pents`, which needs 120 * n_t * n_s^3 places, and how many
 * there are to `count`; five vertices are written for each. They are lawful for cjapthumi_from_pentachorons with n_t * n_s^3 vertices.
 * Refuses 6, 5.
 */
uint32_t cjapthumi_foliated_hypercubic(size_t n_t, size_t n_s, uint32_t *pents, size_t pents_len, size_t *count);

/* Writes the type of each edge of a lattice's complex to `types`, which needs a place for each edge. Refuses 6, 7, 5. */
uint32_t cjapthumi_edge_types(
    size_t n_t, size_t n_s,
    const size_t counts[5],
    const uint32_t *pents, size_t pents_len,
    const uint32_t *edges, size_t edges_len,
    const uint32_t *triangles, size_t triangles_len,
    const uint32_t *tets, size_t tets_len,
    const uint32_t *tri_to_pents_items, size_t tri_to_pents_items_len,
    const uint32_t *tri_to_pents_starts, size_t tri_to_pents_starts_len,
    const uint32_t *edge_to_tris_items, size_t edge_to_tris_items_len,
    const uint32_t *edge_to_tris_starts, size_t edge_to_tris_starts_len,
    const uint32_t *edge_to_pents_items, size_t edge_to_pents_items_len,
    const uint32_t *edge_to_pents_starts, size_t edge_to_pents_starts_len,
    uint8_t *types, size_t types_len);

/*
 * Writes the squared lengths of a lattice's edges in flat Minkowski space, with steps of `spacing` in space and of `dt` in time, to
 * `sq_lengths`, which needs a place for each edge. Refuses 6, 7, 5.
 */
uint32_t cjapthumi_flat_minkowski_sq_lengths(
    size_t n_t, size_t n_s,
    const size_t counts[5],
    const uint32_t *pents, size_t pents_len,
    const uint32_t *edges, size_t edges_len,
    const uint32_t *triangles, size_t triangles_len,
    const uint32_t *tets, size_t tets_len,
    const uint32_t *tri_to_pents_items, size_t tri_to_pents_items_len,
    const uint32_t *tri_to_pents_starts, size_t tri_to_pents_starts_len,
    const uint32_t *edge_to_tris_items, size_t edge_to_tris_items_len,
    const uint32_t *edge_to_tris_starts, size_t edge_to_tris_starts_len,
    const uint32_t *edge_to_pents_items, size_t edge_to_pents_items_len,
    const uint32_t *edge_to_pents_starts, size_t edge_to_pents_starts_len,
    double spacing, double dt,
    double *sq_lengths, size_t sq_lengths_len);

/* ---- hinges, action, gradient ---- */

/* Writes the deficit and the kind of each triangle; both lists need a place for each triangle. Refuses 7, 8, 5. */
uint32_t cjapthumi_lorentzian_deficit_angles(
    const size_t counts[5],
    const uint32_t *pents, size_t pents_len,
    const uint32_t *edges, size_t edges_len,
    const uint32_t *triangles, size_t triangles_len,
    const uint32_t *tets, size_t tets_len,
    const uint32_t *tri_to_pents_items, size_t tri_to_pents_items_len,
    const uint32_t *tri_to_pents_starts, size_t tri_to_pents_starts_len,
    const uint32_t *edge_to_tris_items, size_t edge_to_tris_items_len,
    const uint32_t *edge_to_tris_starts, size_t edge_to_tris_starts_len,
    const uint32_t *edge_to_pents_items, size_t edge_to_pents_items_len,
    const uint32_t *edge_to_pents_starts, size_t edge_to_pents_starts_len,
    const double *sq_lengths, size_t sq_lengths_len,
    double *deficits, size_t deficits_len,
    uint8_t *kinds, size_t kinds_len);

/* Writes the deficit and the kind of one triangle. Refuses 7, 8, and 11 where there is no triangle of that number. */
uint32_t cjapthumi_lorentzian_deficit_angle(
    const size_t counts[5],
    const uint32_t *pents, size_t pents_len,
    const uint32_t *edges, size_t edges_len,
    const uint32_t *triangles, size_t triangles_len,
    const uint32_t *tets, size_t tets_len,
    const uint32_t *tri_to_pents_items, size_t tri_to_pents_items_len,
    const uint32_t *tri_to_pents_starts, size_t tri_to_pents_starts_len,
    const uint32_t *edge_to_tris_items, size_t edge_to_tris_items_len,
    const uint32_t *edge_to_tris_starts, size_t edge_to_tris_starts_len,
    const uint32_t *edge_to_pents_items, size_t edge_to_pents_items_len,
    const uint32_t *edge_to_pents_starts, size_t edge_to_pents_starts_len,
    const double *sq_lengths, size_t sq_lengths_len,
    uint32_t tri,
    double *deficit, uint8_t *kind);

/* Writes the action, the sum of all areas, each times its deficit. Refuses 7, 8. */
uint32_t cjapthumi_lorentzian_regge_action(
    const size_t counts[5],
    const uint32_t *pents, size_t pents_len,
    const uint32_t *edges, size_t edges_len,
    const uint32_t *triangles, size_t triangles_len,
    const uint32_t *tets, size_t tets_len,
    const uint32_t *tri_to_pents_items, size_t tri_to_pents_items_len,
    const uint32_t *tri_to_pents_starts, size_t tri_to_pents_starts_len,
    const uint32_t *edge_to_tris_items, size_t edge_to_tris_items_len,
    const uint32_t *edge_to_tris_starts, size_t edge_to_tris_starts_len,
    const uint32_t *edge_to_pents_items, size_t edge_to_pents_items_len,
    const uint32_t *edge_to_pents_starts, size_t edge_to_pents_starts_len,
    const double *sq_lengths, size_t sq_lengths_len,
    double *action);

/* Writes the action's derivative by each squared length to `grad`, which needs a place for each edge. Refuses 7, 8, 5. */
uint32_t cjapthumi_lorentzian_regge_action_grad(
    const size_t counts[5],
    const uint32_t *pents, size_t pents_len,
    const uint32_t *edges, size_t edges_len,
    const uint32_t *triangles, size_t triangles_len,
    const uint32_t *tets, size_t tets_len,
    const uint32_t *tri_to_pents_items, size_t tri_to_pents_items_len,
    const uint32_t *tri_to_pents_starts, size_t tri_to_pents_starts_len,
    const uint32_t *edge_to_tris_items, size_t edge_to_tris_items_len,
    const uint32_t *edge_to_tris_starts, size_t edge_to_tris_starts_len,
    const uint32_t *edge_to_pents_items, size_t edge_to_pents_items_len,
    const uint32_t *edge_to_pents_starts, size_t edge_to_pents_starts_len,
    const double *sq_lengths, size_t sq_lengths_len,
    double *grad, size_t grad_len);

/* Writes how many squared lengths are timelike, null and spacelike; a NaN is counted as spacelike. Refuses nothing. */
void cjapthumi_length_signs(const double *sq_lengths, size_t sq_lengths_len, size_t signs[3]);

/* ---- free edges ---- */

/*
 * Writes the numbers of the triangles on free edges, ascending, with the deficit and the kind of each, and how many there are to
 * `count`; the three lists need as many places. Refuses 7, 8, 9, 10, 5.
 */
uint32_t cjapthumi_local_deficit_angles(
    const size_t counts[5],
    const uint32_t *pents, size_t pents_len,
    const uint32_t *edges, size_t edges_len,
    const uint32_t *triangles, size_t triangles_len,
    const uint32_t *tets, size_t tets_len,
    const uint32_t *tri_to_pents_items, size_t tri_to_pents_items_len,
    const uint32_t *tri_to_pents_starts, size_t tri_to_pents_starts_len,
    const uint32_t *edge_to_tris_items, size_t edge_to_tris_items_len,
    const uint32_t *edge_to_tris_starts, size_t edge_to_tris_starts_len,
    const uint32_t *edge_to_pents_items, size_t edge_to_pents_items_len,
    const uint32_t *edge_to_pents_starts, size_t edge_to_pents_starts_len,
    const double *sq_lengths, size_t sq_lengths_len,
    const uint32_t *free_edges, size_t free_edges_len,
    uint32_t *tris, size_t tris_len,
    double *deficits, size_t deficits_len,
    uint8_t *kinds, size_t kinds_len,
    size_t *count);

/*
 * Writes the gradient's entry of each free edge, in their order, to `grad`, which needs a place for each free edge; the bits are those
 * of cjapthumi_lorentzian_regge_action_grad. Refuses 7, 8, 9, 10, 5.
 */
uint32_t cjapthumi_local_lorentzian_regge_action_grad(
    const size_t counts[5],
    const uint32_t *pents, size_t pents_len,
    const uint32_t *edges, size_t edges_len,
    const uint32_t *triangles, size_t triangles_len,
    const uint32_t *tets, size_t tets_len,
    const uint32_t *tri_to_pents_items, size_t tri_to_pents_items_len,
    const uint32_t *tri_to_pents_starts, size_t tri_to_pents_starts_len,
    const uint32_t *edge_to_tris_items, size_t edge_to_tris_items_len,
    const uint32_t *edge_to_tris_starts, size_t edge_to_tris_starts_len,
    const uint32_t *edge_to_pents_items, size_t edge_to_pents_items_len,
    const uint32_t *edge_to_pents_starts, size_t edge_to_pents_starts_len,
    const double *sq_lengths, size_t sq_lengths_len,
    const uint32_t *free_edges, size_t free_edges_len,
    double *grad, size_t grad_len);

/*
 * Writes the Hessian of the action at n free edges, rows and columns in their order, row after row, to `hessian`, which needs n * n
 * places; dihedrals are differentiated by central differences with the step fd_eps, any double. Refuses 7, 8, 9, 10, 5.
 */
uint32_t cjapthumi_local_lorentzian_regge_hessian(
    const size_t counts[5],
    const uint32_t *pents, size_t pents_len,
    const uint32_t *edges, size_t edges_len,
    const uint32_t *triangles, size_t triangles_len,
    const uint32_t *tets, size_t tets_len,
    const uint32_t *tri_to_pents_items, size_t tri_to_pents_items_len,
    const uint32_t *tri_to_pents_starts, size_t tri_to_pents_starts_len,
    const uint32_t *edge_to_tris_items, size_t edge_to_tris_items_len,
    const uint32_t *edge_to_tris_starts, size_t edge_to_tris_starts_len,
    const uint32_t *edge_to_pents_items, size_t edge_to_pents_items_len,
    const uint32_t *edge_to_pents_starts, size_t edge_to_pents_starts_len,
    const double *sq_lengths, size_t sq_lengths_len,
    const uint32_t *free_edges, size_t free_edges_len,
    double fd_eps,
    double *hessian, size_t hessian_len);

/* ---- the retouch ---- */

/*
 * Stores sq_length at an edge and works out anew the deficit and the kind of each triangle of each pentachoron that contains the edge,
 * in lists that need a place for each triangle; the other places keep what they hold. Refuses 7, 8, 9, 5.
 */
uint32_t cjapthumi_retouch(
    const size_t counts[5],
    const uint32_t *pents, size_t pents_len,
    const uint32_t *edges, size_t edges_len,
    const uint32_t *triangles, size_t triangles_len,
    const uint32_t *tets, size_t tets_len,
    const uint32_t *tri_to_pents_items, size_t tri_to_pents_items_len,
    const uint32_t *tri_to_pents_starts, size_t tri_to_pents_starts_len,
    const uint32_t *edge_to_tris_items, size_t edge_to_tris_items_len,
    const uint32_t *edge_to_tris_starts, size_t edge_to_tris_starts_len,
    const uint32_t *edge_to_pents_items, size_t edge_to_pents_items_len,
    const uint32_t *edge_to_pents_starts, size_t edge_to_pents_starts_len,
    double *sq_lengths, size_t sq_lengths_len,
    uint32_t edge, double sq_length,
    double *deficits, size_t deficits_len,
    uint8_t *kinds, size_t kinds_len);

#ifdef __cplusplus
}
#endif

#endif
