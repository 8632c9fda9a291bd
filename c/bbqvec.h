/*
 * bbqvec.h: the vector index as C calls it. The functions are those of the proved crates `capi_numbers`, `capi_vectors`,
 * `capi_sets` and `capi_index`: link the object or the static library that `tools/library` makes of them. bbqvec_index.h
 * is the shorter way in: it owns the memory of an index and makes these calls.
 *
 * MEMORY. Nothing is allocated and nothing is kept between calls: the caller owns all memory and lends it for the length
 * of a call, each piece as a pointer and its number of elements. What a call may write is lent without `const`. The
 * caller sees to it that
 *   - each pointer is not null and aligned for its type, also where the length is 0, and that many elements lie behind it;
 *   - memory that a call may write overlaps nothing else that is lent to the call, and no other thread touches any of it
 *     until the call returns. (Two calls at a time may share what both only read.)
 * Beyond that, no input makes a call leave the lent memory, crash or run for ever.
 *
 * WHAT TO FILL IN BEFOREHAND.
 *   face sets, marks, vectors   call bbq_new: it makes them empty, whatever they held; then let only the calls write them
 *   bases                       all of their floats, by the caller
 *   work, layers, set           nothing: they may hold anything
 *   places for answers          nothing; an accepted list leaves the places beyond it as they were
 *
 * GEOMETRY. d dimensions (1 to 1,024), n bases (1 to 32), cap the capacity (a multiple of 64, 64 to 65,536; ids are 0 to
 * cap - 1) and the store mode (0: four bytes a component, 1: two, bf16). Each call of an index takes these four again, and
 * they have to be the same for the same memory. Each length is exact; the functions below named _len give it.
 *
 * BASES. A basis is d vectors of d components, used as given. It is meant to be orthonormal, which nothing checks;
 * bbq_orthonormalize makes one of, say, random numbers. An index means something only together with the bases that its
 * vectors were added with: lend the same ones, to the bit, to every addition and every search, and merge only indexes that
 * were filled with the same ones. Nothing compares them: with others a search looks into the wrong face sets, and answers
 * all the same.
 *
 * ANSWERS. A call answers 0 where it accepts, else the number of the refusal. Its checks run in the order in which the
 * numbers stand at the call below, and the first that fails decides. No refusal changes an index. A refusal leaves every
 * place that an answer is written into (out, faces, dropped, layer, ids, scores, counts, out_ids, out_scores) as it was,
 * but for one: 6 of bbq_orthonormalize leaves its `out` +0.0 throughout.
 *
 * SCORES. A score is the Euclidean distance from the target as given to the stored vector, and what is stored is the added
 * vector divided by its norm (in mode 1 rounded to bf16 then). So normalise a target too, by bbq_normalize: after (4,0) was
 * added, the target (4,0) has the score 3.0 and the target (1,0) has 0.0.
 *
 * LISTS. The LARGER score comes first, as in the Rust that this is a port of; of equal scores, the smaller id. A list for k
 * entries is the first k of all that was ranked, in that order. So where more than k ids are ranked, it keeps the k
 * FARTHEST of them: with three vectors ranked and k 1, the farthest is listed, and an exact match is lost. Where at most k
 * ids are ranked, they are all in the list, and none is nearer than the last entry. This version has no other order.
 *
 * SEARCHING: search_k AND spill. A basis has 2d faces, one for each of its vectors and each sign, and each face has a set of
 * ids. Adding a vector projects it on each basis and puts its id into the set of one face of each: the face of the entry
 * with the greatest absolute value. A search projects the target likewise, takes the sets of the spill + 1 faces with the
 * greatest entries (as bbq_spill_faces picks them; a spill of d or more counts as d - 1), and joins them: these are the ids
 * that this basis names. Layer i, for i from 0 to n - 1, holds the ids that more than i bases name. The highest layer with
 * at least search_k ids is chosen, and all of its ids are ranked. If no layer has as many, the search is refused by 8: the
 * bases together name fewer than search_k ids.
 *   - A larger search_k means the same layer or a lower one, thus the same candidates or more: slower, and less is missed.
 *     An accepted search ranks at least search_k ids, so search_k at least k gives a list of k entries. search_k 0 chooses
 *     the last layer, n - 1, even if it is empty; the list is then empty.
 *   - A larger spill means more faces a basis. It never takes an id out of a layer. It may bring a higher layer up to
 *     search_k ids, though, and that one is chosen then and may have fewer ids than the one before.
 * To start with: spill 0 and search_k as many candidates as you want to look at. After 8, raise spill, or lower search_k, or
 * take bbq_full_table_scan. If more ids are ranked than k (counts[1] > k), the nearest are cut off: raise k, to 256 at most,
 * or lower search_k.
 *
 * FLOATS are IEEE 754 binary32, and each operation is rounded once. The calls assume the floating-point environment that a C
 * program starts with: rounding to nearest, subnormal numbers kept (no flushing to zero), no traps. Under another
 * environment they answer otherwise than is said here. (Linking a program with -ffast-math can turn flushing on before main
 * runs.) A NaN that a call gives out has unspecified bits.
 */
#ifndef BBQVEC_H
#define BBQVEC_H

#include <stddef.h>
#include <stdint.h>

#ifdef __cplusplus
extern "C" {
#endif

/* The version of this header, and of the library that goes with it. It is raised when a call's arguments change, or what
   they mean: MAJOR, or MINOR while MAJOR is 0. So compile and link with the same MAJOR and MINOR. */
#define BBQVEC_VERSION_MAJOR 0
#define BBQVEC_VERSION_MINOR 2
#define BBQVEC_VERSION_PATCH 0
#define BBQVEC_VERSION "0.2.0"

/* The numbers that the calls below give. No call gives another. */
enum bbq_refusal {
    BBQ_OK = 0,
    BBQ_WRONG_GEOMETRY = 1, /* geometry, mode or a projection's length out of range; more than 8 rounds */
    BBQ_WRONG_LENGTH = 2,   /* a lent length is wrong */
    BBQ_WRONG_ID = 3,       /* an id that is not below cap */
    BBQ_WRONG_K = 4,        /* k over 256 */
    BBQ_NOT_FINITE = 5,     /* a component of a given vector, or of a basis to orthonormalise, is not finite */
    BBQ_NO_NORM = 6,        /* a vector cannot be brought to length 1: the norm is 0 or not finite, or a quotient is not finite */
    BBQ_NO_PROJECTION = 7,  /* an entry of a projection is not finite: too large, or the basis is not finite */
    BBQ_NO_LAYER = 8,       /* no counting layer holds search_k ids */
    BBQ_NO_MARK = 9,        /* a candidate has no present mark: something else wrote into the index */
    BBQ_NAN_SCORE = 10,     /* a score is NaN; in a search or a scan: something else wrote into the index */
    BBQ_SHARED_ID = 11,     /* both indexes to merge hold an id */
    BBQ_FULL_COUNT = 12     /* bbq_feed was lent more than 4,294,967,295 pairs */
};

/* ---- bits ---- */

/* The bits of the nearest binary32 to the root of the binary32 with these bits; a NaN and a negative other than -0 give 7FC00000. */
uint32_t bbq_sqrt(uint32_t bits);

/* The bf16 of a binary32, both as bits: the nearest, of two as near the even one; of a NaN its upper half and bit 0040. */
uint16_t bbq_lower(uint32_t bits);

/* The binary32 of a bf16, both as bits. */
uint32_t bbq_widen(uint16_t half);

/* ---- how much to lend, in elements; 0 for a geometry that is refused ---- */

size_t bbq_bases_len(size_t d, size_t n, size_t cap, size_t mode);   /* floats:  n * d * d; component c of vector r of basis b at (b * d + r) * d + c */
size_t bbq_faces_len(size_t d, size_t n, size_t cap, size_t mode);   /* 64-bit words of the face sets: n * 2d * cap / 64 */
size_t bbq_marks_len(size_t d, size_t n, size_t cap, size_t mode);   /* 64-bit words of the present marks: cap / 64 */
size_t bbq_vectors_len(size_t d, size_t n, size_t cap, size_t mode); /* bytes of the stored vectors: cap * 4d, or cap * 2d */
size_t bbq_work_len(size_t d, size_t n, size_t cap, size_t mode);    /* floats of work memory, for adding and searching: d */
size_t bbq_layers_len(size_t d, size_t n, size_t cap, size_t mode);  /* 64-bit words of a search's layers: n * cap / 64 */
size_t bbq_set_len(size_t d, size_t n, size_t cap, size_t mode);     /* 64-bit words of a search's set: cap / 64 */

/* ---- vectors and bases ---- */

/* The dot product, or the distance, of two vectors of one length, in out[0]. out_len is 1. Refuses 2. */
uint32_t bbq_dot_product(const float *a, size_t a_len, const float *b, size_t b_len, float *out, size_t out_len);
uint32_t bbq_distance(const float *a, size_t a_len, const float *b, size_t b_len, float *out, size_t out_len);

/* Divides each component by the norm. Refuses 5, then 6, and leaves the vector as it was then. */
uint32_t bbq_normalize(float *v, size_t v_len);

/* Reads one basis of d * d floats and writes it, orthonormalised in this many rounds (0 to 8; 0 copies), to out, d * d
   floats too. Refuses 1, 2, 5, which leave out as it was, and 6, which leaves it all +0.0. */
uint32_t bbq_orthonormalize(const float *basis, size_t basis_len, float *out, size_t out_len, size_t d, size_t rounds);

/* ---- an index: face sets, present marks and stored vectors; the bases stand beside it ---- */

/* Makes the index empty, whatever the memory held. Refuses 1, 2. */
uint32_t bbq_new(uint64_t *faces, size_t faces_len, uint64_t *marks, size_t marks_len, uint8_t *vectors, size_t vectors_len,
                 size_t d, size_t n, size_t cap, size_t mode);

/* Puts the vector, divided by its norm, into the index under the id. An id that is there already gets the new vector, and
   keeps its older face bits: it is still found where it was, too. Refuses 1, 2, 3, 5, 6, 7; 1 to 5 leave the work memory as
   it was, and past them it is +0.0 throughout. */
uint32_t bbq_add_vector(const float *bases, size_t bases_len, uint64_t *faces, size_t faces_len, uint64_t *marks, size_t marks_len,
                        uint8_t *vectors, size_t vectors_len, float *work, size_t work_len, const float *vector, size_t vector_len,
                        size_t d, size_t n, size_t cap, size_t mode, size_t id);

/* Ranks the candidates that the index names for the target (see SEARCHING) and lists at most k of them, the LARGER score
   first: the nearest are those that a full list leaves out (see LISTS). ids and scores have length k, counts has length 3.
   Accepted, it writes
     counts[0]   the list's length, the smaller of k and counts[1]
     counts[1]   how many ids were ranked: all of the chosen layer
     counts[2]   how many ids fell off the last layer; it is always 0
     ids, scores the list, in the first counts[0] places; those beyond are as they were.
   Refuses 1, 2, 4, 5, 7, 8, then 9 or 10 for the first id that is at fault. Refusals 1 to 5 leave work, layers and set as
   they were; past them they are zeros throughout. */
uint32_t bbq_find_nearest(const float *bases, size_t bases_len, const uint64_t *faces, size_t faces_len, const uint64_t *marks, size_t marks_len,
                          const uint8_t *vectors, size_t vectors_len, float *work, size_t work_len, uint64_t *layers, size_t layers_len,
                          uint64_t *set, size_t set_len, const float *target, size_t target_len, uint32_t *ids, size_t ids_len,
                          float *scores, size_t scores_len, uint32_t *counts, size_t counts_len,
                          size_t d, size_t n, size_t cap, size_t mode, size_t k, size_t search_k, size_t spill);

/* Ranks every present id, and lists at most k of them in the same order: the k FARTHEST where there are more. ids and
   scores have length k, counts has length 2: counts[0] is the list's length, counts[1] how many ids were ranked, which is
   how many the index holds. Refuses 1, 2, 4, 5, 10. */
uint32_t bbq_full_table_scan(const uint64_t *marks, size_t marks_len, const uint8_t *vectors, size_t vectors_len,
                             const float *target, size_t target_len, uint32_t *ids, size_t ids_len, float *scores, size_t scores_len,
                             uint32_t *counts, size_t counts_len, size_t d, size_t n, size_t cap, size_t mode, size_t k);

/* Joins a second index of the same geometry, which stays as it is, to the first. Both have to be filled with the same
   bases; nothing compares them. Refuses 1, 2, 11. */
uint32_t bbq_merge(uint64_t *faces, size_t faces_len, uint64_t *marks, size_t marks_len, uint8_t *vectors, size_t vectors_len,
                   const uint64_t *faces2, size_t faces2_len, const uint64_t *marks2, size_t marks2_len,
                   const uint8_t *vectors2, size_t vectors2_len, size_t d, size_t n, size_t cap, size_t mode);

/* ---- faces, layers and result sets by themselves ---- */

/* The face of a projection of 1 to 1,024 entries in out[0]: index + 1, or -(index + 1). out_len is 1. Refuses 1, 2, 7. */
uint32_t bbq_find_face_idx(const float *projection, size_t projection_len, int32_t *out, size_t out_len);

/* Picks min(spill, d - 1) + 1 faces into the first places of faces, which is as long as the projection, d; each picked
   entry of the projection becomes +0.0. Refuses 1, 2, 7, and leaves the projection as it was then. */
uint32_t bbq_spill_faces(float *projection, size_t projection_len, size_t spill, int32_t *faces, size_t faces_len);

/* Merges a set of cap / 64 words into n counting layers, one after the other; the set then holds what fell off the last
   layer, and dropped[0] is how many ids that is. dropped_len is 1. Refuses 1, 2, and changes nothing then. */
uint32_t bbq_counting_or(uint64_t *layers, size_t layers_len, uint64_t *set, size_t set_len, size_t cap, size_t n, uint32_t *dropped, size_t dropped_len);

/* The number, from 0, of the highest layer with at least search_k ids, in layer[0]. layer_len is 1. Refuses 1, 2, 8. */
uint32_t bbq_top_k(const uint64_t *layers, size_t layers_len, size_t cap, size_t n, size_t search_k, size_t *layer, size_t layer_len);

/* Makes a result set for k entries and feeds it the pairs of ids and scores, which have one length, in turn. A full set
   whose last score is larger than the new one stays as it is. Else the set is walked from its first entry on. If an entry
   has the new id, the walk ends and the set stays as it is; else if it has a smaller score, the new entry goes before it.
   Past the last entry the new one goes to the end. The set is then cut to k. out_ids and out_scores have length k, counts
   has length 2: counts[0] is the list's length, counts[1] how many pairs were fed. Refuses 2, 4, then what the first
   refused feed gives: 10 for a score that is NaN, 12 for one pair more than can be counted. */
uint32_t bbq_feed(size_t k, const uint32_t *ids, size_t ids_len, const float *scores, size_t scores_len,
                  uint32_t *out_ids, size_t out_ids_len, float *out_scores, size_t out_scores_len, uint32_t *counts, size_t counts_len);

#ifdef __cplusplus
}
#endif

#endif
