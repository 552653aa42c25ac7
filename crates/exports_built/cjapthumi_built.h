/*
 * The cores for C: the calls of cjapthumi.h over a complex that the caller knows to be built. Link target/staticlib/libexports_built.a,
 * which `bindings/build` proves and builds for x86-64 Linux, beside libexports.a.
 *
 * What a caller keeps, beside all of cjapthumi.h
 * - The counts and the ten lists are ones for which cjapthumi_check_built has answered 0, those that cjapthumi_from_pentachorons wrote
 *   among them, and `pent_edges` and `pent_tris` are what that call wrote. All of it is unchanged since, or copied as it was. A type
 *   that keeps the lists private holds them so after one call of cjapthumi_check_built.
 * - Nothing checks it again. Of a call over anything else nothing is promised: it may read and write outside the lists.
 *
 * What a call keeps is as in cjapthumi.h, without refusal 7: the same answers with the same bits, the other refusals in the same order,
 * all with place 0; a refused call leaves every buffer as it was.
 *
 * Stack: a call takes up to 0.72 MiB. local_lorentzian_regge_hessian_built takes 0.72 MiB, lorentzian_regge_action_built,
 * lorentzian_regge_action_grad_built and local_lorentzian_regge_action_grad_built 0.71, retouch_built 0.40,
 * local_deficit_angles_built 0.08, the other two less than 2 KiB.
 */
#ifndef CJAPTHUMI_BUILT_H
#define CJAPTHUMI_BUILT_H

#include "cjapthumi.h"

#ifdef __cplusplus
extern "C" {
#endif

/* ---- hinges, action, gradient ---- */

/* Writes the deficit and the kind of each triangle; both lists need a place for each triangle. Refuses 8, 5. */
uint32_t cjapthumi_lorentzian_deficit_angles_built(
    const size_t counts[5],
    const uint32_t *pents, size_t pents_len,
    const uint32_t *edges, size_t edges_len,
    const uint32_t *triangles, size_t triangles_len,
    const uint32_t *tets, size_t tets_len,
    const uint32_t *tri_to_pents_items, size_t tri_to_pents_items_len,
    const uint32_t *tri_to_pents_starts, size_t tri_to_pents_starts_len,
    const uint32_t *edge_to_tris_items, size_t edge_to_tris_items_len,
    const uint32_t *edge_to_tris_starts, size_t edge_to_tris_starts_len,
    const uint32_t *edge_to_pents_items, size_t edge_to_pents_items_len,
    const uint32_t *edge_to_pents_starts, size_t edge_to_pents_starts_len,
    const uint32_t *pent_edges, size_t pent_edges_len,
    const uint32_t *pent_tris, size_t pent_tris_len,
    const double *sq_lengths, size_t sq_lengths_len,
    double *deficits, size_t deficits_len,
    uint8_t *kinds, size_t kinds_len);

/* Writes the deficit and the kind of one triangle. Refuses 8, and 11 where there is no triangle of that number. */
uint32_t cjapthumi_lorentzian_deficit_angle_built(
    const size_t counts[5],
    const uint32_t *pents, size_t pents_len,
    const uint32_t *edges, size_t edges_len,
    const uint32_t *triangles, size_t triangles_len,
    const uint32_t *tets, size_t tets_len,
    const uint32_t *tri_to_pents_items, size_t tri_to_pents_items_len,
    const uint32_t *tri_to_pents_starts, size_t tri_to_pents_starts_len,
    const uint32_t *edge_to_tris_items, size_t edge_to_tris_items_len,
    const uint32_t *edge_to_tris_starts, size_t edge_to_tris_starts_len,
    const uint32_t *edge_to_pents_items, size_t edge_to_pents_items_len,
    const uint32_t *edge_to_pents_starts, size_t edge_to_pents_starts_len,
    const uint32_t *pent_edges, size_t pent_edges_len,
    const uint32_t *pent_tris, size_t pent_tris_len,
    const double *sq_lengths, size_t sq_lengths_len,
    uint32_t tri,
    double *deficit, uint8_t *kind);

/* Writes the action. Refuses 8. */
uint32_t cjapthumi_lorentzian_regge_action_built(
    const size_t counts[5],
    const uint32_t *pents, size_t pents_len,
    const uint32_t *edges, size_t edges_len,
    const uint32_t *triangles, size_t triangles_len,
    const uint32_t *tets, size_t tets_len,
    const uint32_t *tri_to_pents_items, size_t tri_to_pents_items_len,
    const uint32_t *tri_to_pents_starts, size_t tri_to_pents_starts_len,
    const uint32_t *edge_to_tris_items, size_t edge_to_tris_items_len,
    const uint32_t *edge_to_tris_starts, size_t edge_to_tris_starts_len,
    const uint32_t *edge_to_pents_items, size_t edge_to_pents_items_len,
    const uint32_t *edge_to_pents_starts, size_t edge_to_pents_starts_len,
    const uint32_t *pent_edges, size_t pent_edges_len,
    const uint32_t *pent_tris, size_t pent_tris_len,
    const double *sq_lengths, size_t sq_lengths_len,
    double *action);

/* Writes the action's derivative by each squared length to `grad`, which needs a place for each edge. Refuses 8, 5. */
uint32_t cjapthumi_lorentzian_regge_action_grad_built(
    const size_t counts[5],
    const uint32_t *pents, size_t pents_len,
    const uint32_t *edges, size_t edges_len,
    const uint32_t *triangles, size_t triangles_len,
    const uint32_t *tets, size_t tets_len,
    const uint32_t *tri_to_pents_items, size_t tri_to_pents_items_len,
    const uint32_t *tri_to_pents_starts, size_t tri_to_pents_starts_len,
    const uint32_t *edge_to_tris_items, size_t edge_to_tris_items_len,
    const uint32_t *edge_to_tris_starts, size_t edge_to_tris_starts_len,
    const uint32_t *edge_to_pents_items, size_t edge_to_pents_items_len,
    const uint32_t *edge_to_pents_starts, size_t edge_to_pents_starts_len,
    const uint32_t *pent_edges, size_t pent_edges_len,
    const uint32_t *pent_tris, size_t pent_tris_len,
    const double *sq_lengths, size_t sq_lengths_len,
    double *grad, size_t grad_len);

/* ---- free edges ---- */

/*
 * Writes the numbers of the triangles on free edges, ascending, with the deficit and the kind of each, and how many there are to
 * `count`; the three lists need as many places. Refuses 8, 9, 10, 5.
 */
uint32_t cjapthumi_local_deficit_angles_built(
    const size_t counts[5],
    const uint32_t *pents, size_t pents_len,
    const uint32_t *edges, size_t edges_len,
    const uint32_t *triangles, size_t triangles_len,
    const uint32_t *tets, size_t tets_len,
    const uint32_t *tri_to_pents_items, size_t tri_to_pents_items_len,
    const uint32_t *tri_to_pents_starts, size_t tri_to_pents_starts_len,
    const uint32_t *edge_to_tris_items, size_t edge_to_tris_items_len,
    const uint32_t *edge_to_tris_starts, size_t edge_to_tris_starts_len,
    const uint32_t *edge_to_pents_items, size_t edge_to_pents_items_len,
    const uint32_t *edge_to_pents_starts, size_t edge_to_pents_starts_len,
    const uint32_t *pent_edges, size_t pent_edges_len,
    const uint32_t *pent_tris, size_t pent_tris_len,
    const double *sq_lengths, size_t sq_lengths_len,
    const uint32_t *free_edges, size_t free_edges_len,
    uint32_t *tris, size_t tris_len,
    double *deficits, size_t deficits_len,
    uint8_t *kinds, size_t kinds_len,
    size_t *count);

/* Writes the gradient's entry of each free edge, in their order, to `grad`, which needs a place for each. Refuses 8, 9, 10, 5. */
uint32_t cjapthumi_local_lorentzian_regge_action_grad_built(
    const size_t counts[5],
    const uint32_t *pents, size_t pents_len,
    const uint32_t *edges, size_t edges_len,
    const uint32_t *triangles, size_t triangles_len,
    const uint32_t *tets, size_t tets_len,
    const uint32_t *tri_to_pents_items, size_t tri_to_pents_items_len,
    const uint32_t *tri_to_pents_starts, size_t tri_to_pents_starts_len,
    const uint32_t *edge_to_tris_items, size_t edge_to_tris_items_len,
    const uint32_t *edge_to_tris_starts, size_t edge_to_tris_starts_len,
    const uint32_t *edge_to_pents_items, size_t edge_to_pents_items_len,
    const uint32_t *edge_to_pents_starts, size_t edge_to_pents_starts_len,
    const uint32_t *pent_edges, size_t pent_edges_len,
    const uint32_t *pent_tris, size_t pent_tris_len,
    const double *sq_lengths, size_t sq_lengths_len,
    const uint32_t *free_edges, size_t free_edges_len,
    double *grad, size_t grad_len);

/*
 * Writes the Hessian of the action at n free edges, row after row, to `hessian`, which needs n * n places; fd_eps is the step of central
 * differences, any double. Refuses 8, 9, 10, 5.
 */
uint32_t cjapthumi_local_lorentzian_regge_hessian_built(
    const size_t counts[5],
    const uint32_t *pents, size_t pents_len,
    const uint32_t *edges, size_t edges_len,
    const uint32_t *triangles, size_t triangles_len,
    const uint32_t *tets, size_t tets_len,
    const uint32_t *tri_to_pents_items, size_t tri_to_pents_items_len,
    const uint32_t *tri_to_pents_starts, size_t tri_to_pents_starts_len,
    const uint32_t *edge_to_tris_items, size_t edge_to_tris_items_len,
    const uint32_t *edge_to_tris_starts, size_t edge_to_tris_starts_len,
    const uint32_t *edge_to_pents_items, size_t edge_to_pents_items_len,
    const uint32_t *edge_to_pents_starts, size_t edge_to_pents_starts_len,
    const uint32_t *pent_edges, size_t pent_edges_len,
    const uint32_t *pent_tris, size_t pent_tris_len,
    const double *sq_lengths, size_t sq_lengths_len,
    const uint32_t *free_edges, size_t free_edges_len,
    double fd_eps,
    double *hessian, size_t hessian_len);

/* ---- the retouch ---- */

/*
 * Stores sq_length at an edge and works out anew the deficit and the kind of each triangle of each pentachoron that contains the edge,
 * in lists that need a place for each triangle; the other places keep what they hold. Refuses 8, 9, 5.
 */
uint32_t cjapthumi_retouch_built(
    const size_t counts[5],
    const uint32_t *pents, size_t pents_len,
    const uint32_t *edges, size_t edges_len,
    const uint32_t *triangles, size_t triangles_len,
    const uint32_t *tets, size_t tets_len,
    const uint32_t *tri_to_pents_items, size_t tri_to_pents_items_len,
    const uint32_t *tri_to_pents_starts, size_t tri_to_pents_starts_len,
    const uint32_t *edge_to_tris_items, size_t edge_to_tris_items_len,
    const uint32_t *edge_to_tris_starts, size_t edge_to_tris_starts_len,
    const uint32_t *edge_to_pents_items, size_t edge_to_pents_items_len,
    const uint32_t *edge_to_pents_starts, size_t edge_to_pents_starts_len,
    const uint32_t *pent_edges, size_t pent_edges_len,
    const uint32_t *pent_tris, size_t pent_tris_len,
    double *sq_lengths, size_t sq_lengths_len,
    uint32_t edge, double sq_length,
    double *deficits, size_t deficits_len,
    uint8_t *kinds, size_t kinds_len);

#ifdef __cplusplus
}
#endif

#endif
