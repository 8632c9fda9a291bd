/* An index of two dimensions with one basis, the unit vectors: three vectors added, and three searches. */
#include <stdio.h>
#include <string.h>

#include "bbqvec_index.h"

static void add(bbq_index *index, size_t id, float x, float y) {
    const float vector[2] = {x, y};
    int status = bbq_index_add(index, id, vector, 2);
    if (status == BBQ_OK)
        printf("added %zu\n", id);
    else
        printf("refused %d\n", status);
}

/* At most two entries, each with the bits of its score. */
static void search(bbq_index *index, float x, float y, size_t search_k, size_t spill) {
    const float target[2] = {x, y};
    bbq_list list;
    int status = bbq_index_search(index, target, 2, 2, search_k, spill, &list);
    if (status != BBQ_OK) {
        printf("refused %d\n", status);
        return;
    }
    printf("found %u checked %u\n", (unsigned)list.len, (unsigned)list.checked);
    for (uint32_t i = 0; i < list.len; i++) {
        uint32_t bits;
        memcpy(&bits, &list.entries[i].score, sizeof bits);
        printf("%u %08X\n", (unsigned)list.entries[i].id, (unsigned)bits);
    }
}

int main(void) {
    const float unit[4] = {1.0f, 0.0f, 0.0f, 1.0f};
    bbq_index *index;
    int status = bbq_index_open(2, 1, 64, 0, &index);
    if (status != BBQ_OK) {
        fprintf(stderr, "no index: %s\n", bbq_status_text(status));
        return 1;
    }
    printf("geometry 2 1 64 0\n");
    status = bbq_index_set_basis(index, 0, unit, 4);
    if (status == BBQ_OK)
        printf("basis 0\n");
    add(index, 1, 2.0f, 0.0f);
    add(index, 2, 0.0f, 3.0f);
    add(index, 5, 4.0f, 0.0f);
    search(index, 1.0f, 0.0f, 1, 0);
    search(index, 1.0f, 0.0f, 3, 1);
    search(index, 1.0f, 1.0f, 1, 1);
    bbq_index_close(index);
    return 0;
}
