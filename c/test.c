/* Each call at a few inputs: an accepted one, refusals in their order, and what is left as it was. */
#include <stdio.h>
#include <string.h>

#include "bbqvec.h"

static int tried = 0, failed = 0;

#define CHECK(what)                                                       \
    do {                                                                  \
        tried++;                                                          \
        if (!(what)) {                                                    \
            failed++;                                                     \
            printf("line %d: not so: %s\n", __LINE__, #what);             \
        }                                                                 \
    } while (0)

static uint32_t bits(float x) {
    uint32_t b;
    memcpy(&b, &x, sizeof b);
    return b;
}

static float nothing(void) {
    float zero = 0.0f;
    return zero / zero;
}

static void on_version(void) {
    char text[64];
    snprintf(text, sizeof text, "%d.%d.%d", BBQVEC_VERSION_MAJOR, BBQVEC_VERSION_MINOR, BBQVEC_VERSION_PATCH);
    CHECK(strcmp(text, BBQVEC_VERSION) == 0);
}

static void on_bits(void) {
    CHECK(bbq_sqrt(0x40800000u) == 0x40000000u);
    CHECK(bbq_sqrt(0x00000001u) == 0x1A3504F3u);
    CHECK(bbq_sqrt(0x7F7FFFFFu) == 0x5F7FFFFFu);
    CHECK(bbq_sqrt(0x80000000u) == 0x80000000u);
    CHECK(bbq_sqrt(0xBF800000u) == 0x7FC00000u);
    CHECK(bbq_lower(0x3F808000u) == 0x3F80);
    CHECK(bbq_lower(0x3F818000u) == 0x3F82);
    CHECK(bbq_lower(0x7F7FFFFFu) == 0x7F80);
    CHECK(bbq_lower(0x7F800001u) == 0x7FC0);
    CHECK(bbq_widen(0x3F82) == 0x3F820000u);
}

static void on_sizes(void) {
    CHECK(bbq_bases_len(3, 2, 128, 1) == 18);
    CHECK(bbq_faces_len(3, 2, 128, 1) == 24);
    CHECK(bbq_marks_len(3, 2, 128, 1) == 2);
    CHECK(bbq_vectors_len(3, 2, 128, 1) == 768);
    CHECK(bbq_vectors_len(3, 2, 128, 0) == 1536);
    CHECK(bbq_work_len(3, 2, 128, 1) == 3);
    CHECK(bbq_layers_len(3, 2, 128, 1) == 4);
    CHECK(bbq_set_len(3, 2, 128, 1) == 2);
    CHECK(bbq_faces_len(1024, 32, 65536, 0) == (size_t)32 * 2048 * 1024);
    CHECK(bbq_faces_len(1025, 32, 65536, 0) == 0);
    CHECK(bbq_bases_len(3, 33, 128, 0) == 0);
    CHECK(bbq_marks_len(3, 2, 100, 0) == 0);
    CHECK(bbq_work_len(3, 2, 128, 2) == 0);
}

static void on_vectors(void) {
    const float a[3] = {1.0f, 2.0f, 3.0f}, b[3] = {4.0f, -5.0f, 6.0f};
    float out[2] = {7.0f, 8.0f}, v[2] = {3.0f, 4.0f}, zero[2] = {0.0f, 0.0f};
    CHECK(bbq_dot_product(a, 3, b, 3, out, 1) == BBQ_OK && out[0] == 12.0f && out[1] == 8.0f);
    CHECK(bbq_distance(a, 2, b, 2, out, 1) == BBQ_OK && bits(out[0]) == bbq_sqrt(bits(58.0f)));
    out[0] = 7.0f;
    CHECK(bbq_dot_product(a, 3, b, 2, out, 1) == BBQ_WRONG_LENGTH && out[0] == 7.0f);
    CHECK(bbq_dot_product(a, 3, b, 3, out, 2) == BBQ_WRONG_LENGTH && out[0] == 7.0f);
    CHECK(bbq_distance(a, 3, b, 3, out, 0) == BBQ_WRONG_LENGTH && out[0] == 7.0f);
    CHECK(bbq_normalize(v, 2) == BBQ_OK && v[0] == 3.0f / 5.0f && v[1] == 4.0f / 5.0f);
    CHECK(bbq_normalize(zero, 2) == BBQ_NO_NORM && zero[0] == 0.0f);
    v[0] = nothing();
    CHECK(bbq_normalize(v, 2) == BBQ_NOT_FINITE && v[1] == 4.0f / 5.0f);
}

static void on_bases(void) {
    const float skew[4] = {2.0f, 0.0f, 1.0f, 1.0f}, flat[4] = {1.0f, 0.0f, 1.0f, 0.0f};
    float out[4] = {9.0f, 9.0f, 9.0f, 9.0f};
    CHECK(bbq_orthonormalize(skew, 4, out, 4, 2, 9) == BBQ_WRONG_GEOMETRY && out[3] == 9.0f);
    CHECK(bbq_orthonormalize(skew, 4, out, 3, 2, 1) == BBQ_WRONG_LENGTH && out[0] == 9.0f);
    CHECK(bbq_orthonormalize(skew, 4, out, 4, 2, 1) == BBQ_OK && out[0] == 1.0f && out[1] == 0.0f && out[2] == 0.0f && out[3] == 1.0f);
    CHECK(bbq_orthonormalize(flat, 4, out, 4, 2, 1) == BBQ_NO_NORM && out[0] == 0.0f && out[3] == 0.0f);
}

static void on_faces(void) {
    const float even[2] = {1.0f, -1.0f}, down[2] = {-3.0f, -1.0f};
    float w[3] = {5.0f, 0.0f, 0.0f}, bad[2] = {1.0f, 0.0f};
    int32_t out[3] = {9, 9, 9};
    CHECK(bbq_find_face_idx(even, 2, out, 1) == BBQ_OK && out[0] == 1);
    CHECK(bbq_find_face_idx(down, 2, out, 1) == BBQ_OK && out[0] == -1);
    CHECK(bbq_find_face_idx(down, 0, out, 2) == BBQ_WRONG_GEOMETRY && out[0] == -1);
    CHECK(bbq_find_face_idx(down, 2, out, 2) == BBQ_WRONG_LENGTH && out[0] == -1);
    bad[1] = nothing();
    CHECK(bbq_find_face_idx(bad, 2, out, 1) == BBQ_NO_PROJECTION && out[0] == -1);
    CHECK(bbq_spill_faces(w, 3, 1, out, 2) == BBQ_WRONG_LENGTH && w[0] == 5.0f);
    CHECK(bbq_spill_faces(w, 3, 1, out, 3) == BBQ_OK && w[0] == 0.0f && out[0] == 1 && out[1] == -1 && out[2] == 9);
    w[0] = 5.0f;
    CHECK(bbq_spill_faces(w, 3, 2, out, 3) == BBQ_OK && out[0] == 1 && out[1] == -1 && out[2] == -1);
    CHECK(bbq_spill_faces(bad, 2, 7, out, 2) == BBQ_NO_PROJECTION && bad[0] == 1.0f && out[0] == 1);
}

/* Three layers, and the sets {1, 2}, {2, 3}, {2}. */
static void on_layers(void) {
    uint64_t layers[3] = {0, 0, 0}, set[1];
    uint32_t dropped[1] = {9};
    size_t layer[1] = {9};
    set[0] = 6;
    CHECK(bbq_counting_or(layers, 3, set, 1, 64, 3, dropped, 1) == BBQ_OK && dropped[0] == 0 && set[0] == 0);
    set[0] = 12;
    CHECK(bbq_counting_or(layers, 3, set, 1, 64, 3, dropped, 1) == BBQ_OK);
    set[0] = 4;
    CHECK(bbq_counting_or(layers, 3, set, 1, 64, 3, dropped, 1) == BBQ_OK);
    CHECK(layers[0] == 14 && layers[1] == 4 && layers[2] == 4);
    CHECK(bbq_top_k(layers, 3, 64, 3, 1, layer, 1) == BBQ_OK && layer[0] == 2);
    CHECK(bbq_top_k(layers, 3, 64, 3, 2, layer, 1) == BBQ_OK && layer[0] == 0);
    CHECK(bbq_top_k(layers, 3, 64, 3, 4, layer, 1) == BBQ_NO_LAYER && layer[0] == 0);
    set[0] = 4;
    CHECK(bbq_counting_or(layers, 3, set, 1, 65, 3, dropped, 1) == BBQ_WRONG_GEOMETRY && set[0] == 4);
    CHECK(bbq_counting_or(layers, 2, set, 1, 64, 3, dropped, 1) == BBQ_WRONG_LENGTH && layers[1] == 4);
    CHECK(bbq_counting_or(layers, 3, set, 1, 64, 3, dropped, 0) == BBQ_WRONG_LENGTH && set[0] == 4);
    CHECK(bbq_counting_or(layers, 3, set, 1, 64, 3, dropped, 1) == BBQ_OK && dropped[0] == 1 && set[0] == 4);
    CHECK(bbq_top_k(layers, 3, 64, 33, 1, layer, 1) == BBQ_WRONG_GEOMETRY && layer[0] == 0);
}

static void on_results(void) {
    const uint32_t ids[4] = {7, 3, 5, 9}, again[3] = {7, 5, 5};
    const float scores[4] = {1.0f, 2.0f, 2.0f, 2.0f}, others[3] = {1.5f, 1.0f, 2.0f};
    float bad[4] = {1.0f, 2.0f, 0.0f, 2.0f}, out_scores[4] = {9.0f, 9.0f, 9.0f, 9.0f};
    uint32_t out[4] = {9, 9, 9, 9}, counts[2] = {9, 9};
    CHECK(bbq_feed(2, ids, 4, scores, 4, out, 2, out_scores, 2, counts, 2) == BBQ_OK);
    CHECK(counts[0] == 2 && counts[1] == 4 && out[0] == 3 && out[1] == 5 && out_scores[1] == 2.0f && out[2] == 9);
    CHECK(bbq_feed(3, again, 3, others, 3, out, 3, out_scores, 3, counts, 2) == BBQ_OK);
    CHECK(counts[0] == 3 && counts[1] == 3 && out[0] == 5 && out[1] == 7 && out[2] == 5);
    CHECK(bbq_feed(4, ids, 1, scores, 1, out, 4, out_scores, 4, counts, 2) == BBQ_OK && counts[0] == 1 && out[0] == 7 && out[1] == 7 && out[2] == 5);
    bad[2] = nothing();
    CHECK(bbq_feed(4, ids, 4, bad, 4, out, 4, out_scores, 4, counts, 2) == BBQ_NAN_SCORE && counts[0] == 1 && out[1] == 7);
    CHECK(bbq_feed(4, ids, 3, scores, 4, out, 4, out_scores, 4, counts, 2) == BBQ_WRONG_LENGTH);
    CHECK(bbq_feed(4, ids, 4, scores, 4, out, 4, out_scores, 4, counts, 1) == BBQ_WRONG_LENGTH);
    CHECK(bbq_feed(0, ids, 4, scores, 4, out, 0, out_scores, 0, counts, 2) == BBQ_OK && counts[0] == 0 && counts[1] == 4);
}

enum { D = 2, N = 2, CAP = 64, MODE = 1, K = 3, WIDE = 257 };

struct index {
    uint64_t faces[N * 2 * D], marks[1];
    uint8_t vectors[CAP * 2 * D];
};

static const float askew[N * D * D] = {1.0f, 0.0f, 0.0f, 1.0f, 0.6f, 0.8f, -0.8f, 0.6f};
static const float *bases = askew;
static float work[D];
static uint64_t layers[N], set[1];

static uint32_t make(struct index *x) {
    return bbq_new(x->faces, N * 2 * D, x->marks, 1, x->vectors, CAP * 2 * D, D, N, CAP, MODE);
}

static uint32_t add(struct index *x, size_t id, float a, float b) {
    const float v[D] = {a, b};
    return bbq_add_vector(bases, N * D * D, x->faces, N * 2 * D, x->marks, 1, x->vectors, CAP * 2 * D, work, D, v, D, D, N, CAP, MODE, id);
}

static uint32_t search(const struct index *x, float a, float b, size_t k, size_t search_k, size_t spill, size_t room, uint32_t *ids, float *scores, uint32_t *counts) {
    const float v[D] = {a, b};
    return bbq_find_nearest(bases, N * D * D, x->faces, N * 2 * D, x->marks, 1, x->vectors, CAP * 2 * D, work, D, layers, N, set, 1, v, D,
                            ids, room, scores, room, counts, 3, D, N, CAP, MODE, k, search_k, spill);
}

static uint32_t scan(const struct index *x, float a, float b, size_t k, size_t room, uint32_t *ids, float *scores, uint32_t *counts, size_t counts_len) {
    const float v[D] = {a, b};
    return bbq_full_table_scan(x->marks, 1, x->vectors, CAP * 2 * D, v, D, ids, room, scores, room, counts, counts_len, D, N, CAP, MODE, k);
}

static void on_indexes(void) {
    struct index whole, first, second, before;
    uint32_t ids[WIDE] = {99, 99, 99}, counts[3] = {99, 99, 99};
    float scores[WIDE] = {9.0f, 9.0f, 9.0f};
    memset(&whole, 1, sizeof whole);
    CHECK(bbq_new(whole.faces, N * 2 * D, whole.marks, 1, whole.vectors, CAP * 2 * D, D, N, 63, MODE) == BBQ_WRONG_GEOMETRY && whole.vectors[0] == 1);
    CHECK(bbq_new(whole.faces, N * 2 * D, whole.marks, 1, whole.vectors, CAP * 2 * D - 1, D, N, CAP, MODE) == BBQ_WRONG_LENGTH && whole.vectors[0] == 1);
    CHECK(make(&whole) == BBQ_OK && whole.vectors[0] == 0 && whole.marks[0] == 0 && whole.faces[7] == 0);
    make(&first);
    make(&second);

    CHECK(add(&whole, 64, 1.0f, 0.0f) == BBQ_WRONG_ID);
    CHECK(add(&whole, 1, nothing(), 0.0f) == BBQ_NOT_FINITE);
    work[0] = 5.0f;
    CHECK(add(&whole, 1, 0.0f, 0.0f) == BBQ_NO_NORM && work[0] == 0.0f && whole.marks[0] == 0);

    CHECK(add(&whole, 1, 2.0f, 0.0f) == BBQ_OK && add(&whole, 2, 0.0f, 3.0f) == BBQ_OK && add(&whole, 63, -1.0f, 4.0f) == BBQ_OK);
    CHECK(whole.marks[0] == ((uint64_t)1 << 63 | 6));
    CHECK(add(&first, 2, 0.0f, 3.0f) == BBQ_OK && add(&second, 63, -1.0f, 4.0f) == BBQ_OK && add(&second, 1, 2.0f, 0.0f) == BBQ_OK);
    CHECK(bbq_merge(first.faces, N * 2 * D, first.marks, 1, first.vectors, CAP * 2 * D, second.faces, N * 2 * D, second.marks, 1, second.vectors, CAP * 2 * D, D, N, CAP, MODE) == BBQ_OK);
    CHECK(memcmp(&first, &whole, sizeof whole) == 0);
    before = first;
    CHECK(bbq_merge(first.faces, N * 2 * D, first.marks, 1, first.vectors, CAP * 2 * D, second.faces, N * 2 * D, second.marks, 1, second.vectors, CAP * 2 * D, D, N, CAP, MODE) == BBQ_SHARED_ID);
    CHECK(memcmp(&first, &before, sizeof first) == 0);

    CHECK(search(&whole, 1.0f, 0.0f, K, 4, 1, K, ids, scores, counts) == BBQ_NO_LAYER && ids[0] == 99 && counts[0] == 99);
    CHECK(search(&whole, 1.0f, 0.0f, K, 3, 1, K - 1, ids, scores, counts) == BBQ_WRONG_LENGTH && ids[0] == 99);
    CHECK(search(&whole, nothing(), 0.0f, WIDE, 3, 1, WIDE, ids, scores, counts) == BBQ_WRONG_K && ids[0] == 99);
    CHECK(search(&whole, nothing(), 0.0f, K, 3, 1, K, ids, scores, counts) == BBQ_NOT_FINITE && ids[0] == 99);
    CHECK(search(&whole, 1.0f, 0.0f, K, 1, 0, K, ids, scores, counts) == BBQ_OK);
    CHECK(counts[0] == 1 && counts[1] == 1 && counts[2] == 0 && ids[0] == 1 && scores[0] == 0.0f && ids[1] == 99 && scores[1] == 9.0f);
    CHECK(search(&whole, 1.0f, 0.0f, 0, 1, 0, 0, ids, scores, counts) == BBQ_OK && counts[0] == 0 && counts[1] == 1 && ids[0] == 1);

    CHECK(scan(&whole, 1.0f, 0.0f, K, K, ids, scores, counts, 3) == BBQ_WRONG_LENGTH);
    CHECK(scan(&whole, 1.0f, 0.0f, WIDE, WIDE, ids, scores, counts, 2) == BBQ_WRONG_K);
    counts[2] = 99;
    CHECK(scan(&whole, 1.0f, 0.0f, K, K, ids, scores, counts, 2) == BBQ_OK);
    CHECK(counts[0] == 3 && counts[1] == 3 && counts[2] == 99 && ids[0] == 63 && ids[1] == 2 && ids[2] == 1 && scores[2] == 0.0f);
    CHECK(scan(&whole, 1.0f, 0.0f, 1, 1, ids, scores, counts, 2) == BBQ_OK && counts[0] == 1 && counts[1] == 3 && ids[0] == 63 && ids[1] == 2);
}

/* What the header says of lists and scores: the larger score first, the nearest cut off, distances to normalised vectors. */
static void on_lists(void) {
    struct index x;
    uint32_t ids[K], counts[3];
    float scores[K];
    make(&x);
    CHECK(add(&x, 7, 4.0f, 0.0f) == BBQ_OK);
    CHECK(search(&x, 4.0f, 0.0f, 1, 1, 0, 1, ids, scores, counts) == BBQ_OK && ids[0] == 7 && scores[0] == 3.0f);
    CHECK(search(&x, 1.0f, 0.0f, 1, 1, 0, 1, ids, scores, counts) == BBQ_OK && ids[0] == 7 && scores[0] == 0.0f);
    CHECK(add(&x, 8, 0.0f, 1.0f) == BBQ_OK && add(&x, 9, 0.0f, -1.0f) == BBQ_OK && add(&x, 3, -1.0f, 0.0f) == BBQ_OK);
    CHECK(scan(&x, 1.0f, 0.0f, 1, 1, ids, scores, counts, 2) == BBQ_OK && counts[0] == 1 && counts[1] == 4 && ids[0] == 3 && scores[0] == 2.0f);
    CHECK(scan(&x, 1.0f, 0.0f, 3, 3, ids, scores, counts, 2) == BBQ_OK && ids[0] == 3 && ids[1] == 8 && ids[2] == 9 && scores[1] == scores[2]);
    /* two are ranked for (1,0.1), and k 1 loses the nearer */
    CHECK(search(&x, 1.0f, 0.1f, 3, 2, 1, 3, ids, scores, counts) == BBQ_OK && counts[0] == 2 && counts[1] == 2 && ids[0] == 8 && ids[1] == 7 && scores[0] > scores[1]);
    CHECK(search(&x, 1.0f, 0.1f, 1, 2, 1, 1, ids, scores, counts) == BBQ_OK && counts[0] == 1 && counts[1] == 2 && ids[0] == 8);
}

/* search_k and spill. Basis 0 is the unit vectors, basis 1 stands askew; by hand, the faces are
     id 1 (1,0): 1 and -2    id 2 (0,1): 2 and 1    id 4 (3,1): 1 and 1    target (2,1): 1, then 2; and 1, then -2 */
static void on_choices(void) {
    struct index x;
    uint32_t ids[K], counts[3];
    float scores[K];
    make(&x);
    CHECK(add(&x, 1, 1.0f, 0.0f) == BBQ_OK && add(&x, 2, 0.0f, 1.0f) == BBQ_OK && add(&x, 4, 3.0f, 1.0f) == BBQ_OK);
    CHECK(x.faces[0] == 0x12 && x.faces[1] == 0x04 && x.faces[2] == 0 && x.faces[3] == 0);
    CHECK(x.faces[4] == 0x14 && x.faces[5] == 0 && x.faces[6] == 0 && x.faces[7] == 0x02);
    /* spill 0: basis 0 names 1 and 4, basis 1 names 2 and 4; layer 1 is {4}, layer 0 is {1, 2, 4} */
    CHECK(search(&x, 2.0f, 1.0f, K, 1, 0, K, ids, scores, counts) == BBQ_OK && counts[0] == 1 && counts[1] == 1 && ids[0] == 4);
    CHECK(search(&x, 2.0f, 1.0f, K, 2, 0, K, ids, scores, counts) == BBQ_OK && counts[0] == 3 && counts[1] == 3 && counts[2] == 0);
    CHECK(search(&x, 2.0f, 1.0f, K, 3, 0, K, ids, scores, counts) == BBQ_OK && counts[1] == 3);
    CHECK(search(&x, 2.0f, 1.0f, K, 4, 0, K, ids, scores, counts) == BBQ_NO_LAYER);
    /* spill 1, and any larger one: each basis names all three, so layer 1 has them */
    CHECK(search(&x, 2.0f, 1.0f, K, 1, 1, K, ids, scores, counts) == BBQ_OK && counts[1] == 3);
    CHECK(search(&x, 2.0f, 1.0f, K, 1, SIZE_MAX, K, ids, scores, counts) == BBQ_OK && counts[1] == 3);
    /* search_k 0 takes the last layer; for (-2,-1) no basis names any id, and that list is empty */
    CHECK(search(&x, 2.0f, 1.0f, K, 0, 0, K, ids, scores, counts) == BBQ_OK && counts[1] == 1);
    CHECK(search(&x, -2.0f, -1.0f, K, 0, 0, K, ids, scores, counts) == BBQ_OK && counts[0] == 0 && counts[1] == 0);
    CHECK(search(&x, -2.0f, -1.0f, K, 1, 0, K, ids, scores, counts) == BBQ_NO_LAYER);
}

/* A larger spill may shorten a list. The second basis is zeros, so it names all ids, and the first alone decides on layer 1:
   the ids have the faces 2, -1 and -2 there, and the target picks 1, then 2. */
static void on_spill(void) {
    static const float flat[N * D * D] = {1.0f, 0.0f, 0.0f, 1.0f, 0.0f, 0.0f, 0.0f, 0.0f};
    struct index x;
    uint32_t ids[K], counts[3];
    float scores[K];
    make(&x);
    bases = flat;
    CHECK(add(&x, 1, 0.0f, 1.0f) == BBQ_OK && add(&x, 2, -1.0f, 0.0f) == BBQ_OK && add(&x, 3, 0.0f, -1.0f) == BBQ_OK);
    CHECK(search(&x, 2.0f, 1.0f, K, 1, 0, K, ids, scores, counts) == BBQ_OK && counts[0] == 3 && counts[1] == 3);
    CHECK(search(&x, 2.0f, 1.0f, K, 1, 1, K, ids, scores, counts) == BBQ_OK && counts[0] == 1 && counts[1] == 1 && ids[0] == 1);
    bases = askew;
    /* other bases than those added with are not noticed: no id is named now, and for the opposite target one */
    CHECK(search(&x, 2.0f, 1.0f, K, 1, 0, K, ids, scores, counts) == BBQ_NO_LAYER);
    CHECK(search(&x, -2.0f, -1.0f, K, 1, 0, K, ids, scores, counts) == BBQ_OK && counts[1] == 1 && ids[0] == 2);
}

/* Work memory may hold anything, and is zeros past refusals 1 to 5. */
static void on_work(void) {
    struct index x;
    uint32_t ids[K], counts[3];
    float scores[K];
    make(&x);
    memset(work, 0xA5, sizeof work);
    CHECK(add(&x, 1, 1.0f, 0.0f) == BBQ_OK && work[0] == 0.0f && work[1] == 0.0f);
    memset(work, 0xFF, sizeof work);
    memset(layers, 0xFF, sizeof layers);
    memset(set, 0xFF, sizeof set);
    CHECK(search(&x, nothing(), 0.0f, K, 1, 0, K, ids, scores, counts) == BBQ_NOT_FINITE && layers[0] == UINT64_MAX && set[0] == UINT64_MAX && work[0] != work[0]);
    CHECK(search(&x, 1.0f, 0.0f, K, 1, 0, K, ids, scores, counts) == BBQ_OK && counts[0] == 1 && counts[1] == 1 && ids[0] == 1);
    CHECK(bits(work[0]) == 0 && bits(work[1]) == 0 && layers[0] == 0 && layers[1] == 0 && set[0] == 0);
}

/* Projections that overflow, and memory that something else wrote. */
static void on_faults(void) {
    static const float huge[N * D * D] = {1.0f, 0.0f, 0.0f, 1.0f, 3e38f, 3e38f, 0.0f, 1.0f};
    struct index x, before;
    uint32_t ids[K] = {99, 99, 99}, counts[3] = {99, 99, 99};
    float scores[K];
    make(&x);
    CHECK(add(&x, 1, 1.0f, 0.0f) == BBQ_OK && add(&x, 2, 0.0f, 1.0f) == BBQ_OK);
    before = x;
    bases = huge;
    CHECK(add(&x, 3, 2.0f, 2.0f) == BBQ_NO_PROJECTION && memcmp(&x, &before, sizeof x) == 0);
    CHECK(search(&x, 2.0f, 2.0f, K, 1, 0, K, ids, scores, counts) == BBQ_NO_PROJECTION && ids[0] == 99 && counts[0] == 99);
    bases = askew;
    CHECK(search(&x, 3e38f, 3e38f, K, 1, 0, K, ids, scores, counts) == BBQ_NO_PROJECTION && ids[0] == 99 && counts[0] == 99);
    x.marks[0] = 4;
    CHECK(search(&x, 1.0f, 0.0f, K, 1, 0, K, ids, scores, counts) == BBQ_NO_MARK && ids[0] == 99 && counts[0] == 99);
    x = before;
    x.vectors[2 * 2 * D + 1] = 0x7F;
    x.vectors[2 * 2 * D] = 0xC0;
    CHECK(scan(&x, 1.0f, 0.0f, K, K, ids, scores, counts, 2) == BBQ_NAN_SCORE && ids[0] == 99 && counts[0] == 99);
    CHECK(search(&x, 0.0f, 1.0f, K, 1, 0, K, ids, scores, counts) == BBQ_NAN_SCORE && ids[0] == 99 && counts[0] == 99);
    CHECK(search(&x, 1.0f, 0.0f, K, 1, 0, K, ids, scores, counts) == BBQ_OK && ids[0] == 1);
}

int main(void) {
    on_version();
    on_bits();
    on_sizes();
    on_vectors();
    on_bases();
    on_faces();
    on_layers();
    on_results();
    on_indexes();
    on_lists();
    on_choices();
    on_spill();
    on_work();
    on_faults();
    printf("%d checks, %d failed\n", tried, failed);
    return failed != 0;
}
