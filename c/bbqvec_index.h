/*
 * bbqvec_index.h: an index that owns its memory, in plain C over the proved calls of bbqvec.h. It allocates what they have
 * to be lent, with the lengths that they give, and passes on what they answer. It is itself tested, not proved.
 *
 *     bbq_index *index;
 *     if (bbq_index_open(2, 1, 64, 0, &index) != BBQ_OK) ...     two dimensions, one basis, ids 0 to 63, four bytes a component
 *     bbq_index_set_basis(index, 0, basis, 4);
 *     bbq_index_add(index, 7, vector, 2);
 *     bbq_index_search(index, target, 2, 10, 1, 0, &list);
 *     bbq_index_close(index);
 *
 * OWNERSHIP. bbq_index_open makes an index and bbq_index_close gives all of its memory back; nothing else allocates. A call
 * copies what it is handed: no pointer is kept. A bbq_list is the caller's, and needs no cleaning up.
 *
 * STATUS. A call answers 0 where it accepts, a positive number where a proved call refuses (enum bbq_refusal in bbqvec.h,
 * with its order of checks), and a negative one where this layer does (enum bbq_index_status). bbq_status_text says each in
 * words. A call that does not accept leaves the index as it was.
 *
 * THE CALLER sees to it that no pointer is null (but for bbq_index_close), and that as many elements lie behind one as its
 * length says.
 *
 * THREADS. Different indexes have nothing in common. Of one index: bbq_index_search works in memory inside the index, so one
 * thread at a time may search it. bbq_index_scan, bbq_index_holds and bbq_index_len only read, and so does bbq_index_merge
 * of its second index: any number of threads may do so at a time, also beside a search. While a thread sets a basis, adds,
 * merges into the index or closes it, no other thread may use it. Nothing here locks.
 */
#ifndef BBQVEC_INDEX_H
#define BBQVEC_INDEX_H

#include "bbqvec.h"

#ifdef __cplusplus
extern "C" {
#endif

/* What this layer refuses by itself. */
enum bbq_index_status {
    BBQ_NO_MEMORY = -1,      /* open: no memory is to be had */
    BBQ_BASES_SETTLED = -2,  /* set_basis: something was added or merged in, so the bases have to stay */
    BBQ_WRONG_BASIS = -3,    /* set_basis: the number is not below n, or the length is not d * d */
    BBQ_SAME_INDEX = -4,     /* merge: both are one index */
    BBQ_OTHER_GEOMETRY = -5, /* merge: the other index has another geometry */
    BBQ_OTHER_BASES = -6     /* merge: the other index has other bases */
};

/* The most entries of a list. */
#define BBQ_MAX_K 256

typedef struct bbq_entry {
    uint32_t id;
    float score;
} bbq_entry;

/* What a search or a scan found: entries[0] to entries[len - 1], the LARGER score first, as bbqvec.h says under LISTS. checked
   is how many ids were ranked: where it is more than len, the list holds the farthest of them and the nearest are not in it.
   A call that does not accept makes len and checked 0. Entries beyond len are left as they were. */
typedef struct bbq_list {
    uint32_t len;
    uint32_t checked;
    bbq_entry entries[BBQ_MAX_K];
} bbq_list;

typedef struct bbq_index bbq_index;

/* Makes an empty index, *opened, of d dimensions (1 to 1,024) with n bases (1 to 32) for the ids below cap (a multiple of 64,
   64 to 65,536); mode is 0 for four bytes a component, 1 for two. Its bases are zeros until they are set, and so name
   every vector for every target. Refuses 1 and BBQ_NO_MEMORY; *opened is then NULL. */
int bbq_index_open(size_t d, size_t n, size_t cap, size_t mode, bbq_index **opened);

/* Gives the memory back; the index is gone. Does nothing to NULL. */
void bbq_index_close(bbq_index *index);

/* Sets basis b (0 to n - 1): d vectors of d components, one after the other, used as given. It may be set again until a vector
   was added or merged in. Refuses BBQ_BASES_SETTLED, then BBQ_WRONG_BASIS. */
int bbq_index_set_basis(bbq_index *index, size_t b, const float *basis, size_t basis_len);

/* Puts a vector of d components, divided by its norm, into the index under the id. An id that is there already gets the new
   vector, and is still found where the older one was, too. Refuses 2, 3, 5, 6, 7. */
int bbq_index_add(bbq_index *index, size_t id, const float *vector, size_t vector_len);

/* Lists at most k of the candidates that the bases name for the target; bbqvec.h says under SEARCHING what search_k and spill
   do, and under SCORES why to normalise the target. Refuses 2, 4, 5, 7, 8. */
int bbq_index_search(bbq_index *index, const float *target, size_t target_len, size_t k, size_t search_k, size_t spill, bbq_list *list);

/* The same over every vector that is held. Refuses 2, 4, 5. */
int bbq_index_scan(const bbq_index *index, const float *target, size_t target_len, size_t k, bbq_list *list);

/* Joins another index, which stays as it is, to this one. Their bases have to be the same, bit by bit, but where one of the two
   is fresh, with no basis set and nothing added or merged in: a fresh index takes the other's bases over, and a fresh other
   joins nothing. Refuses BBQ_SAME_INDEX, BBQ_OTHER_GEOMETRY, BBQ_OTHER_BASES, then 11 for an id that both hold. */
int bbq_index_merge(bbq_index *index, const bbq_index *other);

/* 1 if a vector is held under the id, else 0. */
int bbq_index_holds(const bbq_index *index, size_t id);

/* How many vectors are held. */
size_t bbq_index_len(const bbq_index *index);

/* A sentence for a refusal's number, 0 to 15 (13 to 15 are given by other parts of the project, not by the calls for C), and one
   for every other number. The text is constant: it is not to be freed or written to. */
const char *bbq_refusal_text(uint32_t number);

/* The same for a status of this layer. */
const char *bbq_status_text(int status);

#ifdef __cplusplus
}
#endif

#endif
