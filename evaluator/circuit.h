/* A circuit file as it is read, and checks 1 to 6.  The words in quotation
   marks, here and in the other files, are those of document 01, or of the
   three demands that come before it. */
#ifndef CIRCUIT_H
#define CIRCUIT_H

#include <stddef.h>
#include <stdint.h>

/* Bytes that are given, or lent to be written. */
struct slice {
    uint8_t *at;
    size_t length;
};

enum outcome { GOOD, ABORT, REFUSED };

/* What a call answers: good with its numbers, abort with the output's number
   and the sum of the objecting sites, or refused with "a number and a
   place".  A text has no largest length, so that a place has no largest
   number. */
struct answer {
    enum outcome outcome;
    unsigned count;
    size_t number[3];
};

struct answer good(void);
struct answer good_with(unsigned count, size_t a, size_t b, size_t c);
struct answer aborted(uint32_t output, uint32_t sites);
struct answer refused(uint32_t number, size_t place);

/* "1 XOR, 2 AND, 3 NOT (second is 0 and reads nothing), 4 OR" */
enum kind { XOR = 1, AND = 2, NOT = 3, OR = 4 };

struct gate {
    uint16_t kind, first, second;
};

/* The counts of a file, kept beside it.  `products` and `own` are counted
   only once checks 4 to 6 have passed. */
struct circuit {
    const uint8_t *file;
    uint32_t inputs, gates, outputs; /* I, G, O */
    uint32_t products;               /* A, "the number of AND and OR gates" */
    uint32_t own[4];                 /* Is at s, for sites 1, 2, 3 */
};

/* "All numbers are little-endian." */
static inline uint32_t number_at(const uint8_t *at)
{
    return (uint32_t)at[0] | (uint32_t)at[1] << 8 | (uint32_t)at[2] << 16
         | (uint32_t)at[3] << 24;
}

static inline uint16_t short_at(const uint8_t *at)
{
    return (uint16_t)(at[0] | at[1] << 8);
}

/* The stored numbers "as they stand, good or bad"; n is below its count.
   "owners at 32, gates at 32+I, outputs at 32+I+6G": the header's offsets
   were held to these sums by check 3, so the sums are used. */
enum { HEADER = 32 };

static inline uint32_t owner_at(const struct circuit *c, uint32_t n)
{
    return c->file[HEADER + n];
}

static inline struct gate gate_at(const struct circuit *c, uint32_t n)
{
    const uint8_t *at = c->file + HEADER + c->inputs + 6 * n;
    struct gate gate = {short_at(at), short_at(at + 2), short_at(at + 4)};
    return gate;
}

static inline uint32_t output_at(const struct circuit *c, uint32_t n)
{
    return short_at(c->file + HEADER + c->inputs + 6 * c->gates + 2 * n);
}

/* "There are W = I+G wires" */
static inline size_t wires(const struct circuit *c)
{
    return c->inputs + c->gates;
}

struct answer check_header(struct slice file, struct circuit *c);  /* 1 to 3 */
struct answer check_circuit(struct slice file, struct circuit *c); /* 1 to 6 */

/* The lengths that 01 gives, for a circuit that passed checks 1 to 6. */
size_t tape_length(const struct circuit *c, unsigned site); /* 2(Is+A) */
size_t tapes_length(const struct circuit *c);               /* 2I+6A */
size_t line_length(const struct circuit *c);                /* 4I+12A+6O */
size_t view_length(const struct circuit *c, unsigned site); /* 2I+Is+6A+3O */

#endif
