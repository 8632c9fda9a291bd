/* An index that owns its memory; bbqvec_index.h describes it. What the proved calls check is not checked again here. */
#include "bbqvec_index.h"

#include <stdlib.h>
#include <string.h>

struct bbq_index {
    size_t d, n, cap, mode;
    int chosen;  /* whether a basis was set, or taken over */
    int settled; /* whether anything was added or merged in: the bases stay from then on */
    float *bases, *work;
    uint64_t *faces, *marks, *layers, *set;
    uint8_t *vectors;
    size_t bases_len, work_len, faces_len, marks_len, layers_len, set_len, vectors_len;
};

/* How the calls take a geometry, and a part of an index. */
#define GEOMETRY(index) (index)->d, (index)->n, (index)->cap, (index)->mode
#define LEND(index, part) (index)->part, (index)->part##_len

/* One place more than a list may have: a k over 256 is handed on as 257, and so the call refuses it in its turn. */
enum { PLACES = BBQ_MAX_K + 1 };

/* Zeros, which the bases have to be at first. Not null for a length of 0: the calls ask for that. */
static void *room(size_t count, size_t size) {
    return calloc(count == 0 ? 1 : count, size);
}

/* Gives a part its length and its memory; false if there is none. */
#define MAKE(index, part)                                              \
    ((index)->part##_len = bbq_##part##_len(GEOMETRY(index)),          \
     (index)->part = room((index)->part##_len, sizeof *(index)->part), \
     (index)->part != NULL)

int bbq_index_open(size_t d, size_t n, size_t cap, size_t mode, bbq_index **opened) {
    bbq_index *index = calloc(1, sizeof *index);
    int status = BBQ_NO_MEMORY;
    *opened = NULL;
    if (index == NULL)
        return status;
    index->d = d;
    index->n = n;
    index->cap = cap;
    index->mode = mode;
    if (MAKE(index, bases) && MAKE(index, work) && MAKE(index, faces) && MAKE(index, marks) && MAKE(index, layers) &&
        MAKE(index, set) && MAKE(index, vectors))
        status = (int)bbq_new(LEND(index, faces), LEND(index, marks), LEND(index, vectors), GEOMETRY(index));
    if (status == BBQ_OK)
        *opened = index;
    else
        bbq_index_close(index);
    return status;
}

void bbq_index_close(bbq_index *index) {
    if (index == NULL)
        return;
    free(index->bases);
    free(index->work);
    free(index->faces);
    free(index->marks);
    free(index->layers);
    free(index->set);
    free(index->vectors);
    free(index);
}

int bbq_index_set_basis(bbq_index *index, size_t b, const float *basis, size_t basis_len) {
    size_t len = index->d * index->d;
    if (index->settled)
        return BBQ_BASES_SETTLED;
    if (b >= index->n || basis_len != len)
        return BBQ_WRONG_BASIS;
    memcpy(index->bases + b * len, basis, len * sizeof *basis);
    index->chosen = 1;
    return BBQ_OK;
}

int bbq_index_add(bbq_index *index, size_t id, const float *vector, size_t vector_len) {
    uint32_t refusal = bbq_add_vector(LEND(index, bases), LEND(index, faces), LEND(index, marks), LEND(index, vectors),
                                      LEND(index, work), vector, vector_len, GEOMETRY(index), id);
    if (refusal == BBQ_OK)
        index->settled = 1;
    return (int)refusal;
}

/* An accepted list out of the arrays that a call wrote, or an empty one. */
static int put_list(uint32_t refusal, const uint32_t *ids, const float *scores, const uint32_t *counts, bbq_list *list) {
    uint32_t i;
    list->len = refusal == BBQ_OK ? counts[0] : 0;
    list->checked = refusal == BBQ_OK ? counts[1] : 0;
    for (i = 0; i < list->len; i++) {
        list->entries[i].id = ids[i];
        list->entries[i].score = scores[i];
    }
    return (int)refusal;
}

int bbq_index_search(bbq_index *index, const float *target, size_t target_len, size_t k, size_t search_k, size_t spill, bbq_list *list) {
    uint32_t ids[PLACES], counts[3];
    float scores[PLACES];
    size_t asked = k < PLACES ? k : PLACES;
    uint32_t refusal = bbq_find_nearest(LEND(index, bases), LEND(index, faces), LEND(index, marks), LEND(index, vectors),
                                        LEND(index, work), LEND(index, layers), LEND(index, set), target, target_len,
                                        ids, asked, scores, asked, counts, 3, GEOMETRY(index), asked, search_k, spill);
    return put_list(refusal, ids, scores, counts, list);
}

int bbq_index_scan(const bbq_index *index, const float *target, size_t target_len, size_t k, bbq_list *list) {
    uint32_t ids[PLACES], counts[2];
    float scores[PLACES];
    size_t asked = k < PLACES ? k : PLACES;
    uint32_t refusal = bbq_full_table_scan(LEND(index, marks), LEND(index, vectors), target, target_len,
                                           ids, asked, scores, asked, counts, 2, GEOMETRY(index), asked);
    return put_list(refusal, ids, scores, counts, list);
}

/* No basis was set, and nothing was added or merged in. */
static int fresh(const bbq_index *index) {
    return !index->chosen && !index->settled;
}

int bbq_index_merge(bbq_index *index, const bbq_index *other) {
    size_t bytes = index->bases_len * sizeof *index->bases;
    int takes_over = fresh(index);
    uint32_t refusal;
    if (index == other)
        return BBQ_SAME_INDEX;
    /* The lengths alone do not tell: two geometries may have the same. */
    if (index->d != other->d || index->n != other->n || index->cap != other->cap || index->mode != other->mode)
        return BBQ_OTHER_GEOMETRY;
    if (!takes_over && !fresh(other) && memcmp(index->bases, other->bases, bytes) != 0)
        return BBQ_OTHER_BASES;
    refusal = bbq_merge(LEND(index, faces), LEND(index, marks), LEND(index, vectors),
                        LEND(other, faces), LEND(other, marks), LEND(other, vectors), GEOMETRY(index));
    if (refusal != BBQ_OK)
        return (int)refusal;
    if (takes_over)
        memcpy(index->bases, other->bases, bytes);
    index->chosen |= other->chosen;
    index->settled |= other->settled;
    return BBQ_OK;
}

int bbq_index_holds(const bbq_index *index, size_t id) {
    return id < index->cap && (index->marks[id / 64] >> (id % 64) & 1) == 1;
}

size_t bbq_index_len(const bbq_index *index) {
    size_t held = 0, i;
    for (i = 0; i < index->marks_len; i++) {
        uint64_t word = index->marks[i];
        for (; word != 0; word &= word - 1) /* drops the lowest mark */
            held++;
    }
    return held;
}

const char *bbq_refusal_text(uint32_t number) {
    switch (number) {
    case 0: return "accepted";
    case 1: return "a geometry, a mode or a number of rounds is out of range, or it is the wrong time";
    case 2: return "a length is wrong";
    case 3: return "the id is not below the capacity";
    case 4: return "k is over 256";
    case 5: return "a component of a given vector is not finite";
    case 6: return "a vector cannot be brought to length 1: its norm is 0 or not finite, or a quotient is not finite";
    case 7: return "an entry of a projection is not finite";
    case 8: return "no counting layer holds search_k ids";
    case 9: return "a candidate has no present mark";
    case 10: return "a score is not a number";
    case 11: return "both indexes hold an id";
    case 12: return "a result set can count no further entry";
    case 13: return "a result set is not well formed";
    case 14: return "recall was asked for at 0";
    case 15: return "the frame of a record is bad, or its kind is unknown";
    default: return "no refusal has this number";
    }
}

const char *bbq_status_text(int status) {
    switch (status) {
    case BBQ_NO_MEMORY: return "there is not enough memory";
    case BBQ_BASES_SETTLED: return "something was added or merged in, so the bases have to stay";
    case BBQ_WRONG_BASIS: return "the number of the basis is not below n, or its length is not d * d";
    case BBQ_SAME_INDEX: return "an index cannot be merged into itself";
    case BBQ_OTHER_GEOMETRY: return "the other index has another geometry";
    case BBQ_OTHER_BASES: return "the other index has other bases";
    default: return status < 0 ? "no status has this number" : bbq_refusal_text((uint32_t)status);
    }
}
