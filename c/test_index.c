/* The layer that owns its memory: what it accepts, what it refuses and leaves as it was, and that memory that runs out is told.
   bbqvec_index.c is part of this file, so that its allocations can be made to fail and its memory can be compared. */
#include <math.h>
#include <stdio.h>
#include <stdlib.h>
#include <string.h>

static long allocations = -1; /* how many more succeed; all while it is negative */

/* No elements give no memory, as in some C libraries. */
static void *scarce(size_t count, size_t size) {
    if (allocations == 0 || count == 0)
        return NULL;
    if (allocations > 0)
        allocations--;
    return calloc(count, size);
}

#define calloc scarce
#include "bbqvec_index.c"
#undef calloc

static int tried = 0, failed = 0;

#define CHECK(what)                                                       \
    do {                                                                  \
        tried++;                                                          \
        if (!(what)) {                                                    \
            failed++;                                                     \
            printf("line %d: not so: %s\n", __LINE__, #what);             \
        }                                                                 \
    } while (0)

static const float unit[4] = {1.0f, 0.0f, 0.0f, 1.0f}, askew[4] = {0.6f, 0.8f, -0.8f, 0.6f};

static bbq_index *opened(size_t d, size_t n, size_t cap, size_t mode) {
    bbq_index *index;
    int status = bbq_index_open(d, n, cap, mode, &index);
    if (status != BBQ_OK) {
        printf("no index: %s\n", bbq_status_text(status));
        exit(1);
    }
    return index;
}

/* Two dimensions and the unit vectors. */
static bbq_index *plain(void) {
    bbq_index *index = opened(2, 1, 64, 0);
    CHECK(bbq_index_set_basis(index, 0, unit, 4) == BBQ_OK);
    return index;
}

static int add(bbq_index *index, size_t id, float x, float y) {
    const float vector[2] = {x, y};
    return bbq_index_add(index, id, vector, 2);
}

static int search(bbq_index *index, float x, float y, size_t k, size_t search_k, size_t spill, bbq_list *list) {
    const float target[2] = {x, y};
    return bbq_index_search(index, target, 2, k, search_k, spill, list);
}

static int scan(const bbq_index *index, float x, float y, size_t k, bbq_list *list) {
    const float target[2] = {x, y};
    return bbq_index_scan(index, target, 2, k, list);
}

/* Whether two indexes of one geometry have the same bases and hold the same, byte for byte. */
static int same(const bbq_index *a, const bbq_index *b) {
    return memcmp(a->bases, b->bases, a->bases_len * sizeof *a->bases) == 0 &&
           memcmp(a->faces, b->faces, a->faces_len * sizeof *a->faces) == 0 &&
           memcmp(a->marks, b->marks, a->marks_len * sizeof *a->marks) == 0 &&
           memcmp(a->vectors, b->vectors, a->vectors_len) == 0;
}

static void on_opening(void) {
    static const size_t wrong[][4] = {{0, 1, 64, 0}, {1025, 1, 64, 0}, {2, 0, 64, 0}, {2, 33, 64, 0}, {2, 1, 0, 0},
                                      {2, 1, 63, 0}, {2, 1, 65600, 0}, {2, 1, 64, 2}, {SIZE_MAX, SIZE_MAX, SIZE_MAX, SIZE_MAX}};
    bbq_index *index, untouched;
    size_t i;
    int status = BBQ_NO_MEMORY;
    long enough = 0;
    for (i = 0; i < sizeof wrong / sizeof *wrong; i++) {
        index = &untouched;
        CHECK(bbq_index_open(wrong[i][0], wrong[i][1], wrong[i][2], wrong[i][3], &index) == BBQ_WRONG_GEOMETRY && index == NULL);
    }
    /* each allocation fails in turn: the index and its seven parts */
    for (; enough < 100 && status == BBQ_NO_MEMORY; enough++) {
        index = &untouched;
        allocations = enough;
        status = bbq_index_open(2, 1, 64, 0, &index);
        CHECK((status == BBQ_NO_MEMORY && index == NULL) || (status == BBQ_OK && index != NULL && index != &untouched));
    }
    allocations = -1;
    CHECK(status == BBQ_OK && enough == 9);
    CHECK(bbq_index_len(index) == 0 && !bbq_index_holds(index, 0) && !bbq_index_holds(index, 64) && !bbq_index_holds(index, SIZE_MAX));
    bbq_index_close(index);
    bbq_index_close(NULL);
    /* the smallest, and one of odd sizes */
    bbq_index_close(opened(1, 1, 64, 1));
    index = opened(3, 2, 128, 1);
    CHECK(index->bases_len == 18 && index->faces_len == 24 && index->marks_len == 2 && index->vectors_len == 768);
    CHECK(index->work_len == 3 && index->layers_len == 4 && index->set_len == 2 && index->bases[17] == 0.0f);
    bbq_index_close(index);
}

static void on_bases(void) {
    bbq_index *index = opened(2, 2, 64, 0);
    const float endless[4] = {INFINITY, 0.0f, 0.0f, 1.0f}, longer[8] = {1.0f};
    bbq_list list;
    CHECK(bbq_index_set_basis(index, 2, unit, 4) == BBQ_WRONG_BASIS);
    CHECK(bbq_index_set_basis(index, SIZE_MAX, unit, 4) == BBQ_WRONG_BASIS);
    CHECK(bbq_index_set_basis(index, 0, unit, 3) == BBQ_WRONG_BASIS && bbq_index_set_basis(index, 0, longer, 8) == BBQ_WRONG_BASIS);
    CHECK(index->bases[0] == 0.0f && !index->chosen);
    CHECK(bbq_index_set_basis(index, 0, endless, 4) == BBQ_OK && bbq_index_set_basis(index, 1, askew, 4) == BBQ_OK);
    /* a refused addition and a search settle nothing */
    CHECK(add(index, 1, 2.0f, 1.0f) == BBQ_NO_PROJECTION && bbq_index_len(index) == 0);
    CHECK(search(index, 1.0f, 0.0f, 1, 0, 0, &list) == BBQ_NO_PROJECTION);
    CHECK(bbq_index_set_basis(index, 0, unit, 4) == BBQ_OK);
    CHECK(memcmp(index->bases, unit, sizeof unit) == 0 && memcmp(index->bases + 4, askew, sizeof askew) == 0);
    CHECK(add(index, 1, 2.0f, 1.0f) == BBQ_OK);
    CHECK(bbq_index_set_basis(index, 0, askew, 4) == BBQ_BASES_SETTLED && bbq_index_set_basis(index, 9, askew, 1) == BBQ_BASES_SETTLED);
    CHECK(memcmp(index->bases, unit, sizeof unit) == 0);
    bbq_index_close(index);
}

static void on_adding(void) {
    bbq_index *index = plain(), *before = plain();
    const float three[3] = {1.0f, 1.0f, 1.0f};
    CHECK(bbq_index_add(index, 1, three, 3) == BBQ_WRONG_LENGTH && bbq_index_add(index, 64, three, 1) == BBQ_WRONG_LENGTH);
    CHECK(add(index, 64, NAN, 0.0f) == BBQ_WRONG_ID && add(index, SIZE_MAX, 1.0f, 0.0f) == BBQ_WRONG_ID);
    CHECK(add(index, 1, NAN, 0.0f) == BBQ_NOT_FINITE && add(index, 1, 0.0f, INFINITY) == BBQ_NOT_FINITE);
    CHECK(add(index, 1, 0.0f, 0.0f) == BBQ_NO_NORM);
    CHECK(same(index, before) && bbq_index_len(index) == 0);
    CHECK(add(index, 0, 1.0f, 0.0f) == BBQ_OK && add(index, 63, 0.0f, 1.0f) == BBQ_OK && add(index, 63, 0.0f, -1.0f) == BBQ_OK);
    CHECK(bbq_index_len(index) == 2 && bbq_index_holds(index, 0) && bbq_index_holds(index, 63) && !bbq_index_holds(index, 1) && !bbq_index_holds(index, 64));
    bbq_index_close(index);
    bbq_index_close(before);
}

static void on_lists(void) {
    bbq_index *index = plain();
    const float three[3] = {1.0f, 0.0f, 0.0f};
    bbq_list list;
    uint32_t i;
    memset(&list, 0x55, sizeof list);
    CHECK(search(index, 1.0f, 0.0f, 5, 1, 0, &list) == BBQ_NO_LAYER && list.len == 0 && list.checked == 0);
    CHECK(scan(index, 1.0f, 0.0f, 5, &list) == BBQ_OK && list.len == 0 && list.checked == 0);
    CHECK(add(index, 1, 2.0f, 0.0f) == BBQ_OK && add(index, 2, 0.0f, 3.0f) == BBQ_OK && add(index, 5, 4.0f, 0.0f) == BBQ_OK);

    /* each refusal makes the list empty, in the calls' order, and any k over 256 is 4 */
    list.len = list.checked = 9;
    CHECK(bbq_index_search(index, three, 3, 257, 1, 0, &list) == BBQ_WRONG_LENGTH && list.len == 0 && list.checked == 0);
    CHECK(bbq_index_scan(index, three, 1, 257, &list) == BBQ_WRONG_LENGTH);
    for (i = 0; i < 3; i++) {
        const size_t k[3] = {257, 258, SIZE_MAX};
        list.len = list.checked = 9;
        CHECK(search(index, NAN, 0.0f, k[i], 1, 0, &list) == BBQ_WRONG_K && list.len == 0 && list.checked == 0);
        list.len = list.checked = 9;
        CHECK(scan(index, NAN, 0.0f, k[i], &list) == BBQ_WRONG_K && list.len == 0 && list.checked == 0);
    }
    CHECK(search(index, NAN, 0.0f, 256, 9, 0, &list) == BBQ_NOT_FINITE && scan(index, NAN, 0.0f, 256, &list) == BBQ_NOT_FINITE);
    CHECK(search(index, 1.0f, 0.0f, 256, 4, SIZE_MAX, &list) == BBQ_NO_LAYER);

    /* the candidates of (1,0) are 1 and 5; the larger score, then the smaller id, comes first, and the nearest is cut off */
    CHECK(search(index, 1.0f, 0.0f, 256, 1, 0, &list) == BBQ_OK && list.len == 2 && list.checked == 2);
    CHECK(list.entries[0].id == 1 && list.entries[1].id == 5 && list.entries[0].score == 0.0f && list.entries[2].id == 0x55555555u);
    CHECK(scan(index, 1.0f, 0.0f, 256, &list) == BBQ_OK && list.len == 3 && list.checked == 3);
    CHECK(list.entries[0].id == 2 && list.entries[1].id == 1 && list.entries[2].id == 5 && list.entries[2].score == 0.0f);
    CHECK(scan(index, 1.0f, 0.0f, 1, &list) == BBQ_OK && list.len == 1 && list.checked == 3 && list.entries[0].id == 2);
    CHECK(scan(index, 1.0f, 0.0f, 0, &list) == BBQ_OK && list.len == 0 && list.checked == 3);
    /* what is stored is normalised, a target is not */
    CHECK(search(index, 4.0f, 0.0f, 1, 1, 0, &list) == BBQ_OK && list.entries[0].id == 1 && list.entries[0].score == 3.0f);
    bbq_index_close(index);

    /* bases that were never set name everything */
    index = opened(2, 1, 64, 0);
    CHECK(add(index, 3, 1.0f, 0.0f) == BBQ_OK && add(index, 4, -1.0f, 0.0f) == BBQ_OK);
    CHECK(search(index, 0.0f, 1.0f, 9, 2, 0, &list) == BBQ_OK && list.len == 2);
    bbq_index_close(index);
}

static void on_merging(void) {
    bbq_index *first = plain(), *second = plain(), *whole = plain(), *other, *fresh, *before;
    const float negative[4] = {1.0f, -0.0f, 0.0f, 1.0f};
    bbq_list list;
    int i;
    CHECK(add(first, 1, 2.0f, 0.0f) == BBQ_OK && add(second, 2, 0.0f, 3.0f) == BBQ_OK && add(second, 5, 4.0f, 0.0f) == BBQ_OK);
    CHECK(add(whole, 5, 4.0f, 0.0f) == BBQ_OK && add(whole, 2, 0.0f, 3.0f) == BBQ_OK && add(whole, 1, 2.0f, 0.0f) == BBQ_OK);
    CHECK(bbq_index_merge(first, second) == BBQ_OK && same(first, whole) && bbq_index_len(first) == 3 && bbq_index_len(second) == 2);
    CHECK(bbq_index_merge(first, second) == BBQ_SHARED_ID && same(first, whole));
    CHECK(bbq_index_merge(first, first) == BBQ_SAME_INDEX && same(first, whole));

    /* another geometry, in one number only, and one with the same lengths */
    for (i = 0; i < 4; i++) {
        other = opened(i == 0 ? 3 : 2, i == 1 ? 2 : 1, i == 2 ? 128 : 64, i == 3 ? 1 : 0);
        CHECK(bbq_index_merge(first, other) == BBQ_OTHER_GEOMETRY && bbq_index_merge(other, first) == BBQ_OTHER_GEOMETRY);
        bbq_index_close(other);
    }
    other = opened(2, 2, 64, 0);
    fresh = opened(4, 1, 64, 1);
    CHECK(other->faces_len == fresh->faces_len && other->marks_len == fresh->marks_len && other->vectors_len == fresh->vectors_len);
    CHECK(add(other, 9, 1.0f, 0.0f) == BBQ_OK && bbq_index_merge(fresh, other) == BBQ_OTHER_GEOMETRY && bbq_index_len(fresh) == 0);
    bbq_index_close(other);
    bbq_index_close(fresh);

    /* other bases, told apart by their bits; bases come before a shared id */
    other = opened(2, 1, 64, 0);
    CHECK(bbq_index_set_basis(other, 0, askew, 4) == BBQ_OK && add(other, 1, 1.0f, 0.0f) == BBQ_OK);
    CHECK(bbq_index_merge(first, other) == BBQ_OTHER_BASES && same(first, whole));
    CHECK(bbq_index_merge(other, first) == BBQ_OTHER_BASES && bbq_index_len(other) == 1);
    bbq_index_close(other);
    other = opened(2, 1, 64, 0);
    CHECK(bbq_index_set_basis(other, 0, negative, 4) == BBQ_OK && bbq_index_merge(other, first) == BBQ_OTHER_BASES && bbq_index_len(other) == 0);
    bbq_index_close(other);
    other = opened(2, 1, 64, 0);
    CHECK(bbq_index_merge(first, other) == BBQ_OK && same(first, whole)); /* a fresh other joins nothing */
    CHECK(add(other, 9, 1.0f, 0.0f) == BBQ_OK && bbq_index_merge(other, first) == BBQ_OTHER_BASES && bbq_index_len(other) == 1);
    bbq_index_close(other);

    /* a fresh index takes the bases over: it finds what it was given, and can be added to */
    fresh = opened(2, 1, 64, 0);
    CHECK(search(fresh, 1.0f, 0.0f, 9, 1, 0, &list) == BBQ_NO_LAYER);
    CHECK(bbq_index_merge(fresh, second) == BBQ_OK && same(fresh, second));
    CHECK(search(fresh, 1.0f, 0.1f, 9, 1, 0, &list) == BBQ_OK && list.len == 1 && list.checked == 1 && list.entries[0].id == 5);
    CHECK(bbq_index_set_basis(fresh, 0, askew, 4) == BBQ_BASES_SETTLED);
    CHECK(add(fresh, 1, 2.0f, 0.0f) == BBQ_OK && same(fresh, whole));
    CHECK(bbq_index_merge(fresh, second) == BBQ_SHARED_ID);
    bbq_index_close(fresh);

    /* nothing in, nothing settled: the bases come over and may still be set */
    other = plain();
    fresh = opened(2, 1, 64, 0);
    before = opened(2, 1, 64, 0);
    CHECK(bbq_index_merge(fresh, before) == BBQ_OK && bbq_index_merge(fresh, other) == BBQ_OK && same(fresh, other));
    CHECK(bbq_index_merge(fresh, before) == BBQ_OK && same(fresh, other)); /* a fresh other joins nothing, and changes no basis */
    CHECK(bbq_index_set_basis(fresh, 0, askew, 4) == BBQ_OK && bbq_index_merge(fresh, other) == BBQ_OTHER_BASES);
    bbq_index_close(before);
    bbq_index_close(fresh);
    bbq_index_close(other);
    bbq_index_close(first);
    bbq_index_close(second);
    bbq_index_close(whole);
}

/* ---- a larger index against a list that is worked out here ---- */

enum { D = 7, N = 3, CAP = 320, HELD = 300 };

static uint32_t state = 1;

/* From -1 to 1. */
static float drawn(void) {
    state = state * 1664525u + 1013904223u;
    return (float)(state >> 8) / 8388608.0f - 1.0f;
}

static int falling(const void *a, const void *b) {
    const bbq_entry *x = a, *y = b;
    if (x->score != y->score)
        return x->score > y->score ? -1 : 1;
    return x->id < y->id ? -1 : x->id > y->id;
}

/* Whether the list is the first k of these entries, in the order of lists. */
static int lists(const bbq_list *list, bbq_entry *entries, size_t count, size_t k) {
    size_t i;
    qsort(entries, count, sizeof *entries, falling);
    if (list->checked != count || list->len != (k < count ? k : count))
        return 0;
    for (i = 0; i < list->len; i++)
        if (list->entries[i].id != entries[i].id || list->entries[i].score != entries[i].score)
            return 0;
    return 1;
}

/* The entries of the ids that at least so many bases name; how many these are. */
static size_t reached(const size_t *named, size_t least, float vectors[HELD][D], const float *target, bbq_entry *entries) {
    size_t count = 0, i;
    for (i = 0; i < HELD; i++)
        if (named[i] >= least) {
            entries[count].id = (uint32_t)i;
            bbq_distance(target, D, vectors[i], D, &entries[count].score, 1);
            count++;
        }
    return count;
}

/* The face of a vector in a basis. */
static int32_t face_of(const bbq_index *index, size_t b, const float *vector) {
    float projection[D];
    int32_t face = 0;
    size_t r;
    for (r = 0; r < D; r++)
        bbq_dot_product(index->bases + (b * D + r) * D, D, vector, D, &projection[r], 1);
    bbq_find_face_idx(projection, D, &face, 1);
    return face;
}

static void on_many(void) {
    static const size_t sizes[] = {0, 1, 7, 255, 256};
    static float given[HELD][D], vectors[HELD][D]; /* the latter normalised */
    static bbq_entry entries[HELD];
    static size_t named[HELD], taken[N + 1];
    bbq_index *whole = opened(D, N, CAP, 0), *parts[3], *joined = opened(D, N, CAP, 0);
    float basis[D * D], made[D * D], target[D];
    bbq_list list;
    size_t i, b, s;
    for (i = 0; i < 3; i++)
        parts[i] = opened(D, N, CAP, 0);
    for (b = 0; b < N; b++) {
        for (i = 0; i < D * D; i++)
            basis[i] = drawn();
        CHECK(bbq_orthonormalize(basis, D * D, made, D * D, D, 1) == BBQ_OK);
        CHECK(bbq_index_set_basis(whole, b, made, D * D) == BBQ_OK);
        for (i = 0; i < 3; i++)
            CHECK(bbq_index_set_basis(parts[i], b, made, D * D) == BBQ_OK);
    }
    for (i = 0; i < HELD; i++) {
        for (b = 0; b < D; b++)
            vectors[i][b] = given[i][b] = drawn();
        CHECK(bbq_index_add(whole, i, given[i], D) == BBQ_OK && bbq_index_add(parts[i % 3], i, given[i], D) == BBQ_OK);
        CHECK(bbq_normalize(vectors[i], D) == BBQ_OK);
    }
    CHECK(bbq_index_len(whole) == HELD && bbq_index_holds(whole, HELD - 1) && !bbq_index_holds(whole, HELD));
    for (i = 0; i < 3; i++)
        CHECK(bbq_index_merge(joined, parts[2 - i]) == BBQ_OK);
    CHECK(same(joined, whole));

    for (b = 0; b < D; b++)
        target[b] = given[17][b] + drawn() / 8.0f;
    for (s = 0; s < sizeof sizes / sizeof *sizes; s++) {
        reached(named, 0, vectors, target, entries);
        CHECK(bbq_index_scan(whole, target, D, sizes[s], &list) == BBQ_OK && lists(&list, entries, HELD, sizes[s]));
    }
    /* how many bases give an id the target's face; a search takes the ids with the highest number that enough of them reach */
    for (b = 0; b < N; b++) {
        int32_t wanted = face_of(whole, b, target);
        for (i = 0; i < HELD; i++)
            named[i] += face_of(whole, b, given[i]) == wanted;
    }
    for (s = 1; s <= HELD; s++) {
        size_t least = N, count;
        int status = bbq_index_search(joined, target, D, 256, s, 0, &list);
        while ((count = reached(named, least, vectors, target, entries)) < s && least > 0)
            least--;
        taken[least]++;
        CHECK(least == 0 ? status == BBQ_NO_LAYER : status == BBQ_OK && lists(&list, entries, count, 256));
    }
    CHECK(taken[0] > 0 && taken[1] > 0 && taken[2] > 0 && taken[3] > 0);
    for (i = 0; i < 3; i++)
        bbq_index_close(parts[i]);
    bbq_index_close(whole);
    bbq_index_close(joined);
}

/* Every number has a sentence of its own; so have, together, all that none is given for. */
static void on_texts(void) {
    const int lowest = BBQ_OTHER_BASES - 1, highest = 16;
    int i, j;
    for (i = lowest; i <= highest; i++) {
        CHECK(strlen(bbq_status_text(i)) > 7);
        for (j = lowest; j < i; j++)
            CHECK(strcmp(bbq_status_text(i), bbq_status_text(j)) != 0);
        if (i >= 0)
            CHECK(strcmp(bbq_status_text(i), bbq_refusal_text((uint32_t)i)) == 0);
    }
    CHECK(strcmp(bbq_refusal_text(16), bbq_refusal_text(UINT32_MAX)) == 0 && strcmp(bbq_status_text(lowest), bbq_status_text(-1000)) == 0);
    CHECK(strcmp(bbq_refusal_text(BBQ_SHARED_ID), "both indexes hold an id") == 0);
}

int main(void) {
    on_opening();
    on_bases();
    on_adding();
    on_lists();
    on_merging();
    on_many();
    on_texts();
    printf("%d checks, %d failed\n", tried, failed);
    return failed != 0;
}
