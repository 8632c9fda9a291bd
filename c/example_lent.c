/* The same as example.c by the proved calls alone: the program itself lends the memory, and nothing need be allocated.
   An index of two dimensions with one basis, the unit vectors: three vectors added, and three searches. */
#include <stdio.h>
#include <stdlib.h>
#include <string.h>

#include "bbqvec.h"

enum { D = 2, N = 1, CAP = 64, MODE = 0, K = 2 };

/* What an index of this geometry is lent. The lengths come from the library. */
struct memory {
    float *bases, *work;
    uint64_t *faces, *marks, *layers, *set;
    uint8_t *vectors;
};

static void *room(size_t count, size_t size) {
    void *p = calloc(count, size);
    if (p == NULL) {
        fprintf(stderr, "no memory\n");
        exit(1);
    }
    return p;
}

static struct memory lend(void) {
    struct memory m;
    m.bases = room(bbq_bases_len(D, N, CAP, MODE), sizeof *m.bases);
    m.work = room(bbq_work_len(D, N, CAP, MODE), sizeof *m.work);
    m.faces = room(bbq_faces_len(D, N, CAP, MODE), sizeof *m.faces);
    m.marks = room(bbq_marks_len(D, N, CAP, MODE), sizeof *m.marks);
    m.layers = room(bbq_layers_len(D, N, CAP, MODE), sizeof *m.layers);
    m.set = room(bbq_set_len(D, N, CAP, MODE), sizeof *m.set);
    m.vectors = room(bbq_vectors_len(D, N, CAP, MODE), sizeof *m.vectors);
    return m;
}

static void give_back(struct memory m) {
    free(m.bases);
    free(m.work);
    free(m.faces);
    free(m.marks);
    free(m.layers);
    free(m.set);
    free(m.vectors);
}

static void add(struct memory m, size_t id, float x, float y) {
    const float vector[D] = {x, y};
    uint32_t refusal = bbq_add_vector(m.bases, bbq_bases_len(D, N, CAP, MODE), m.faces, bbq_faces_len(D, N, CAP, MODE),
                                      m.marks, bbq_marks_len(D, N, CAP, MODE), m.vectors, bbq_vectors_len(D, N, CAP, MODE),
                                      m.work, bbq_work_len(D, N, CAP, MODE), vector, D, D, N, CAP, MODE, id);
    if (refusal == BBQ_OK)
        printf("added %zu\n", id);
    else
        printf("refused %u\n", (unsigned)refusal);
}

static void search(struct memory m, float x, float y, size_t search_k, size_t spill) {
    const float target[D] = {x, y};
    uint32_t ids[K], counts[3];
    float scores[K];
    uint32_t refusal = bbq_find_nearest(m.bases, bbq_bases_len(D, N, CAP, MODE), m.faces, bbq_faces_len(D, N, CAP, MODE),
                                        m.marks, bbq_marks_len(D, N, CAP, MODE), m.vectors, bbq_vectors_len(D, N, CAP, MODE),
                                        m.work, bbq_work_len(D, N, CAP, MODE), m.layers, bbq_layers_len(D, N, CAP, MODE),
                                        m.set, bbq_set_len(D, N, CAP, MODE), target, D, ids, K, scores, K, counts, 3,
                                        D, N, CAP, MODE, K, search_k, spill);
    if (refusal != BBQ_OK) {
        printf("refused %u\n", (unsigned)refusal);
        return;
    }
    printf("found %u checked %u\n", (unsigned)counts[0], (unsigned)counts[1]);
    for (uint32_t i = 0; i < counts[0]; i++) {
        uint32_t bits;
        memcpy(&bits, &scores[i], sizeof bits);
        printf("%u %08X\n", (unsigned)ids[i], (unsigned)bits);
    }
}

int main(void) {
    struct memory m = lend();
    const float unit[D * D] = {1.0f, 0.0f, 0.0f, 1.0f};
    uint32_t refusal = bbq_new(m.faces, bbq_faces_len(D, N, CAP, MODE), m.marks, bbq_marks_len(D, N, CAP, MODE),
                               m.vectors, bbq_vectors_len(D, N, CAP, MODE), D, N, CAP, MODE);
    if (refusal != BBQ_OK) {
        printf("refused %u\n", (unsigned)refusal);
        return 1;
    }
    printf("geometry %d %d %d %d\n", D, N, CAP, MODE);
    memcpy(m.bases, unit, sizeof unit);
    printf("basis 0\n");
    add(m, 1, 2.0f, 0.0f);
    add(m, 2, 0.0f, 3.0f);
    add(m, 5, 4.0f, 0.0f);
    search(m, 1.0f, 0.0f, 1, 0);
    search(m, 1.0f, 0.0f, 3, 1);
    search(m, 1.0f, 1.0f, 1, 1);
    give_back(m);
    return 0;
}
