/* The steps at the three sites, over a type `bit`.

   The file that includes this one says what a bit is.  The evaluator's calls
   take a byte, 0 or 1.  The exhaustive test takes a word of 64 lanes, each
   lane one run with tapes of its own.  Nothing below but xor, and, and a
   flip by BIT_ONE is done to a bit, so both are the same steps. */
#ifndef STEPS_H
#define STEPS_H

#include "circuit.h"

#if !defined BIT || !defined BIT_ONE
#error "say what a bit is, and which bit has a one in every lane"
#endif

typedef BIT bit;

/* How far a run is: how many bits were sent, and where in the slice of tapes
   each site draws next. */
struct mark {
    size_t sent;
    size_t drawn[4];
};

struct run {
    const struct circuit *circuit;
    const bit *inputs;
    const bit *tapes;
    const bit *line; /* none is a clean line */
    bit *store;      /* 6W */
    bit *transcript; /* 4I+12A+6O */
    uint8_t *to;     /* the receiver of each bit of the transcript */
    bit *opened;     /* 3O */
    bit objects[4];  /* at the opening made last, by site */
    struct mark at;
};

/* "counted in a ring, so after 3 comes 1" */
static inline unsigned after(unsigned site)
{
    return site == 3 ? 1 : site + 1;
}

/* "Tapes stand in one slice, site 1's first" */
static inline void begin(struct run *r)
{
    r->at.sent = 0;
    r->at.drawn[0] = 0;
    r->at.drawn[1] = 0;
    r->at.drawn[2] = tape_length(r->circuit, 1);
    r->at.drawn[3] = r->at.drawn[2] + tape_length(r->circuit, 2);
}

/* "Site s's part starts at 2W(s-1) ...; in it, wire w has its two bytes at
   2w": part s, then part s+1. */
static inline bit *pair_at(const struct run *r, unsigned site, size_t wire)
{
    return r->store + 2 * wires(r->circuit) * (site - 1) + 2 * wire;
}

/* The pairs of all sites are held as pair[s][0], part s at site s, and
   pair[s][1], part s+1 at site s. */
static inline void take(const struct run *r, size_t wire, bit pair[4][2])
{
    for (unsigned s = 1; s <= 3; s++) {
        pair[s][0] = pair_at(r, s, wire)[0];
        pair[s][1] = pair_at(r, s, wire)[1];
    }
}

static inline void put(struct run *r, size_t wire, bit pair[4][2])
{
    for (unsigned s = 1; s <= 3; s++) {
        pair_at(r, s, wire)[0] = pair[s][0];
        pair_at(r, s, wire)[1] = pair[s][1];
    }
}

/* "The line is one byte per sent bit, xored onto it. The transcript is the
   delivered bits in this order." */
static inline bit send(struct run *r, unsigned to, bit sent)
{
    size_t n = r->at.sent++;
    bit delivered = r->line ? sent ^ r->line[n] : sent;
    r->transcript[n] = delivered;
    r->to[n] = (uint8_t)to;
    return delivered;
}

/* "two tape bits become parts s+1 and s+2; part s is x xor both. The owner
   sends each other site that site's two parts." It "sends first to s+1, then
   to s+2; for a receiver k its part k comes before part k+1". */
static inline void share(struct run *r, unsigned s, bit x, bit pair[4][2])
{
    unsigned t = after(s), u = after(t);
    bit part[4];

    part[t] = r->tapes[r->at.drawn[s]++];
    part[u] = r->tapes[r->at.drawn[s]++];
    part[s] = x ^ part[t] ^ part[u];
    pair[s][0] = part[s];
    pair[s][1] = part[t];
    pair[t][0] = send(r, t, part[t]);
    pair[t][1] = send(r, t, part[u]);
    pair[u][0] = send(r, u, part[u]);
    pair[u][1] = send(r, u, part[s]);
}

static inline void input_step(struct run *r, uint32_t n)
{
    bit pair[4][2];
    share(r, owner_at(r->circuit, n), r->inputs[n], pair);
    put(r, n, pair);
}

/* "part 1 is flipped wherever held": at site 1, and at site 3. */
static inline void flip_part_1(bit pair[4][2])
{
    pair[1][0] ^= BIT_ONE;
    pair[3][1] ^= BIT_ONE;
}

/* "each held part, xored" */
static inline void xor_onto(bit pair[4][2], bit other[4][2])
{
    for (unsigned s = 1; s <= 3; s++) {
        pair[s][0] ^= other[s][0];
        pair[s][1] ^= other[s][1];
    }
}

/* "site s forms v = x(s)y(s) xor x(s)y(s+1) xor x(s+1)y(s), shares v as in 1
   from its own tape, and sends. The new part j is the xor of the three pieces
   j, as held or received." */
static inline void multiply(struct run *r, bit x[4][2], bit y[4][2],
                            bit product[4][2])
{
    for (unsigned s = 1; s <= 3; s++) {
        bit piece[4][2];
        bit v = (x[s][0] & y[s][0]) ^ (x[s][0] & y[s][1]) ^ (x[s][1] & y[s][0]);
        if (s == 1) {
            share(r, s, v, product);
        } else {
            share(r, s, v, piece);
            xor_onto(product, piece);
        }
    }
}

/* The operands are taken as working copies.  OR flips part 1 in the copies
   alone, and the operands' pairs in the store stay. */
static inline void gate_step(struct run *r, uint32_t g)
{
    struct gate gate = gate_at(r->circuit, g);
    bit x[4][2], y[4][2], z[4][2];

    take(r, gate.first, x);
    if (gate.kind == NOT) {
        flip_part_1(x);
        put(r, r->circuit->inputs + g, x);
        return;
    }
    take(r, gate.second, y);
    if (gate.kind == XOR) {
        xor_onto(x, y);
        put(r, r->circuit->inputs + g, x);
        return;
    }
    /* "OR: flip part 1 of both operands, AND, flip part 1 of the result." */
    if (gate.kind == OR) {
        flip_part_1(x);
        flip_part_1(y);
    }
    multiply(r, x, y, z);
    if (gate.kind == OR)
        flip_part_1(z);
    put(r, r->circuit->inputs + g, z);
}

/* "site k lacks part k+2. Both others send it. Unlike copies: site k objects.
   Else it opens the xor of its pair and that part." Sender s has part s for
   s+1, which lacks it, and part s+1 for s+2, which lacks that one. */
static inline void open_step(struct run *r, uint32_t n)
{
    bit pair[4][2], copy[4][2];

    take(r, output_at(r->circuit, n), pair);
    for (unsigned s = 1; s <= 3; s++) {
        unsigned t = after(s), u = after(t);
        copy[t][0] = send(r, t, pair[s][0]);
        copy[u][1] = send(r, u, pair[s][1]);
    }
    for (unsigned k = 1; k <= 3; k++) {
        r->objects[k] = copy[k][0] ^ copy[k][1];
        r->opened[3 * n + k - 1] = pair[k][0] ^ pair[k][1] ^ copy[k][0];
    }
}

/* Wire n's step: "Inputs come first, then gates". */
static inline void wire_step(struct run *r, uint32_t n)
{
    if (n < r->circuit->inputs)
        input_step(r, n);
    else
        gate_step(r, n - r->circuit->inputs);
}

/* A whole run.  "If any site objects at an output, the run ends there":
   answers that output's number, or O where no site objects. */
static inline uint32_t run_through(struct run *r)
{
    uint32_t n;

    begin(r);
    for (n = 0; n < wires(r->circuit); n++)
        wire_step(r, n);
    for (n = 0; n < r->circuit->outputs; n++) {
        open_step(r, n);
        if (r->objects[1] | r->objects[2] | r->objects[3])
            break;
    }
    return n;
}

/* "own inputs in wire order, own tape, bits delivered to s in transcript
   order, then opened bits": where each bit of site s's view stands after a
   run.  Answers how many there are. */
static inline size_t view_places(const struct run *r, unsigned s,
                                 const bit **place)
{
    const struct circuit *c = r->circuit;
    size_t count = 0, tape = 0;

    for (uint32_t n = 0; n < c->inputs; n++)
        if (owner_at(c, n) == s)
            place[count++] = r->inputs + n;
    for (unsigned t = 1; t < s; t++)
        tape += tape_length(c, t);
    for (size_t n = 0; n < tape_length(c, s); n++)
        place[count++] = r->tapes + tape + n;
    for (size_t n = 0; n < r->at.sent; n++)
        if (r->to[n] == s)
            place[count++] = r->transcript + n;
    for (uint32_t n = 0; n < c->outputs; n++)
        place[count++] = r->opened + 3 * n + s - 1;
    return count;
}

#endif
