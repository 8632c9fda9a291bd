/*
 * answer: answers the driver's questions (../diff/src/through.rs has their form) with the library that it is linked with. It reads
 * them from standard input, one after the other, and writes each answer to standard output. `run` builds and starts it.
 *
 * Each memory of a question is laid out by itself: aligned for its elements and no better (a processor with alignments of its own
 * would stumble over more), with known bytes before and behind it. After the call these bytes, and all memory that the call may
 * only read, must be as they were; the answer says so.
 *
 * Built with -DFAULT it can be told to make a mistake, to try the driver: `plant NAME value`, `plant NAME memory I` and `plant
 * NAME beside` flip one bit in one of every 50 answers to that call: of its value, of its memory number I (from 0), of the byte
 * behind its last memory.
 */
#include "../../c/bbqvec.h"

#include <stdio.h>
#include <stdlib.h>
#include <string.h>

enum { MOST = 16, BESIDE = 64, FILL = 0xC3 };

struct memory {
    uint8_t *at;
    size_t count, bytes;
    int written;
    const uint8_t *sent;
};

static struct memory lent[MOST];
static size_t lents;
static uint64_t number[MOST];
static size_t numbers;

static void stop(const char *why, const char *what) {
    fprintf(stderr, "answer: %s%s\n", why, what);
    exit(2);
}

/* ---- the fault, if there is one ---- */

#ifdef FAULT
static char fault_name[64], fault_kind[16];
static unsigned fault_memory;
static uint64_t answers;

static void plant(const char *text) {
    answers = 0;
    fault_memory = 0;
    if (sscanf(text, "plant %63s %15s %u", fault_name, fault_kind, &fault_memory) < 2) stop("no fault: ", text);
}

/* Is this answer to be a wrong one, of this kind? */
static int wrong(const char *text, const char *kind) {
    size_t length = strlen(fault_name);
    return length > 0 && strncmp(text, fault_name, length) == 0 && text[length] == ' ' && strcmp(fault_kind, kind) == 0 && ++answers % 50 == 0;
}

static uint64_t value_told(const char *text, uint64_t value) { return wrong(text, "value") ? value ^ 1 : value; }

static void spoil(const char *text) {
    if (lents == 0) return;
    if (wrong(text, "memory") && lent[fault_memory].bytes > 0) {
        struct memory *m = &lent[fault_memory];
        m->at[answers * 7919 % m->bytes] ^= (uint8_t)(1u << answers / 50 % 8);
    }
    if (wrong(text, "beside")) lent[lents - 1].at[lent[lents - 1].bytes] ^= 1;
}
#else
static void plant(const char *text) { stop("built without -DFAULT, and asked to ", text); }
static uint64_t value_told(const char *text, uint64_t value) { (void)text; return value; }
static void spoil(const char *text) { (void)text; }
#endif

/* ---- the calls ---- */

#define R(type, i) (const type *)(const void *)lent[i].at, lent[i].count
#define W(type, i) (type *)(void *)lent[i].at, lent[i].count
#define N(i) ((size_t)number[i])
#define GEOMETRY N(0), N(1), N(2), N(3)

/* Name, words of the arguments, arguments. The compiler holds them to the header, the words hold them to the driver. */
#define CALLS(X) \
    X(bbq_sqrt, " n", (uint32_t)number[0]) \
    X(bbq_lower, " n", (uint32_t)number[0]) \
    X(bbq_widen, " n", (uint16_t)number[0]) \
    X(bbq_bases_len, " n n n n", GEOMETRY) \
    X(bbq_faces_len, " n n n n", GEOMETRY) \
    X(bbq_marks_len, " n n n n", GEOMETRY) \
    X(bbq_vectors_len, " n n n n", GEOMETRY) \
    X(bbq_work_len, " n n n n", GEOMETRY) \
    X(bbq_layers_len, " n n n n", GEOMETRY) \
    X(bbq_set_len, " n n n n", GEOMETRY) \
    X(bbq_dot_product, " r4 r4 w4", R(float, 0), R(float, 1), W(float, 2)) \
    X(bbq_distance, " r4 r4 w4", R(float, 0), R(float, 1), W(float, 2)) \
    X(bbq_normalize, " w4", W(float, 0)) \
    X(bbq_orthonormalize, " r4 w4 n n", R(float, 0), W(float, 1), N(0), N(1)) \
    X(bbq_find_face_idx, " r4 w4", R(float, 0), W(int32_t, 1)) \
    X(bbq_spill_faces, " w4 n w4", W(float, 0), N(0), W(int32_t, 1)) \
    X(bbq_counting_or, " w8 w8 n n w4", W(uint64_t, 0), W(uint64_t, 1), N(0), N(1), W(uint32_t, 2)) \
    X(bbq_top_k, " r8 n n n w8", R(uint64_t, 0), N(0), N(1), N(2), W(size_t, 1)) \
    X(bbq_feed, " n r4 r4 w4 w4 w4", N(0), R(uint32_t, 0), R(float, 1), W(uint32_t, 2), W(float, 3), W(uint32_t, 4)) \
    X(bbq_new, " w8 w8 w1 n n n n", W(uint64_t, 0), W(uint64_t, 1), W(uint8_t, 2), GEOMETRY) \
    X(bbq_add_vector, " r4 w8 w8 w1 w4 r4 n n n n n", R(float, 0), W(uint64_t, 1), W(uint64_t, 2), W(uint8_t, 3), W(float, 4), R(float, 5), \
      GEOMETRY, N(4)) \
    X(bbq_find_nearest, " r4 r8 r8 r1 w4 w8 w8 r4 w4 w4 w4 n n n n n n n", R(float, 0), R(uint64_t, 1), R(uint64_t, 2), R(uint8_t, 3), W(float, 4), \
      W(uint64_t, 5), W(uint64_t, 6), R(float, 7), W(uint32_t, 8), W(float, 9), W(uint32_t, 10), GEOMETRY, N(4), N(5), N(6)) \
    X(bbq_full_table_scan, " r8 r1 r4 w4 w4 w4 n n n n n", R(uint64_t, 0), R(uint8_t, 1), R(float, 2), W(uint32_t, 3), W(float, 4), W(uint32_t, 5), \
      GEOMETRY, N(4)) \
    X(bbq_merge, " w8 w8 w1 r8 r8 r1 n n n n", W(uint64_t, 0), W(uint64_t, 1), W(uint8_t, 2), R(uint64_t, 3), R(uint64_t, 4), R(uint8_t, 5), GEOMETRY)

#define MADE(name, words, ...) static uint64_t made_##name(void) { return name(__VA_ARGS__); }
CALLS(MADE)

/* A call on bits for each of a row; the answers take the numbers' places. */
#define EACH(name) \
    static uint64_t each_##name(void) { \
        uint32_t *row = (uint32_t *)(void *)lent[0].at; \
        for (size_t i = 0; i < lent[0].count; i++) row[i] = (uint32_t)value_told(#name " ", name(row[i])); \
        return 0; \
    }
EACH(bbq_sqrt)
EACH(bbq_lower)

#define LISTED(name, words, ...) {#name words, made_##name},
static const struct {
    const char *text;
    uint64_t (*call)(void);
} calls[] = {CALLS(LISTED){"bbq_sqrt each w4", each_bbq_sqrt}, {"bbq_lower each w4", each_bbq_lower}};

/* ---- questions and answers ---- */

static uint8_t *room(uint8_t **kept, size_t *held, size_t wanted) {
    if (*held < wanted) {
        free(*kept);
        *held = wanted;
        *kept = malloc(wanted);
        if (*kept == NULL) stop("no memory", "");
    }
    return *kept;
}

static void read_all(void *to, size_t bytes) {
    if (fread(to, 1, bytes, stdin) != bytes) stop("the question ends early", "");
}

static void write_all(const void *from, size_t bytes) {
    if (fwrite(from, 1, bytes, stdout) != bytes) stop("the answer can't be written", "");
}

static void write_number(uint64_t x) { write_all(&x, sizeof x); }

/* Lays out the arguments that the text's words name; they follow it. */
static void lay_out(const char *text, const uint8_t *from, const uint8_t *end) {
    static uint8_t *kept;
    static size_t held;
    uint8_t *at = room(&kept, &held, (size_t)(end - from) + (MOST + 1) * 4 * BESIDE);
    lents = numbers = 0;
    for (const char *word = strchr(text, ' '); word != NULL; word = strchr(word + 1, ' ')) {
        uint64_t x;
        if (strncmp(word, " each", 5) == 0) continue;
        if (lents == MOST || numbers == MOST || end - from < 8) stop("too much or too little for ", text);
        memcpy(&x, from, sizeof x);
        from += sizeof x;
        if (word[1] == 'n') {
            number[numbers++] = x;
            continue;
        }
        size_t size = (size_t)(word[2] - '0');
        if ((uint64_t)(end - from) / size < x) stop("too little memory for ", text);
        struct memory *m = &lent[lents++];
        at += BESIDE + (BESIDE - (uintptr_t)at % BESIDE) + size;
        *m = (struct memory){at, (size_t)x, (size_t)x * size, word[1] == 'w', from};
        memset(at - BESIDE, FILL, BESIDE);
        memcpy(at, from, m->bytes);
        at += m->bytes;
        from += m->bytes;
        memset(at, FILL, BESIDE);
    }
    if (from != end) stop("too much for ", text);
}

static int as_filled(const uint8_t *at) {
    for (size_t i = 0; i < BESIDE; i++)
        if (at[i] != FILL) return 0;
    return 1;
}

static void answer(const char *text, const uint8_t *from, const uint8_t *end) {
    size_t c = 0, all = sizeof calls / sizeof calls[0];
    while (c < all && strcmp(calls[c].text, text) != 0) c++;
    if (c == all) stop("no such call: ", text);
    lay_out(text, from, end);
    uint64_t value = value_told(text, calls[c].call()), changed = 0;
    spoil(text);
    for (size_t i = 0; i < lents; i++) {
        const struct memory *m = &lent[i];
        if (!as_filled(m->at - BESIDE) || !as_filled(m->at + m->bytes)) changed = 1;
        if (!m->written && memcmp(m->at, m->sent, m->bytes) != 0) changed = 1;
    }
    write_number(changed);
    write_number(value);
    for (size_t i = 0; i < lents; i++)
        if (lent[i].written) write_all(lent[i].at, lent[i].bytes);
}

int main(void) {
    uint8_t *kept = NULL;
    size_t held = 0;
    uint64_t length, words;
    setvbuf(stdin, NULL, _IOFBF, 1 << 16);
    setvbuf(stdout, NULL, _IOFBF, 1 << 16);
    while (fread(&length, 1, sizeof length, stdin) == sizeof length) {
        uint8_t *question = room(&kept, &held, length);
        read_all(question, length);
        if (length < sizeof words) stop("no question", "");
        memcpy(&words, question, sizeof words);
        const char *text = (const char *)question + sizeof words;
        if (words == 0 || words > length - sizeof words || text[words - 1] != '\0') stop("no text", "");
        if (strncmp(text, "plant ", 6) == 0) {
            plant(text);
            write_number(0);
            write_number(0);
        } else {
            answer(text, question + sizeof words + words, question + length);
        }
        if (fflush(stdout) != 0) stop("the answer can't be written", "");
    }
    return 0;
}
