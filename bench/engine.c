#include "engine.h"

#include <string.h>

/* Numbers as they stand in memory: the machine is little-endian, as the file is. */
static inline uint32_t get32(const uint8_t *at)
{
    uint32_t x;
    memcpy(&x, at, 4);
    return x;
}

static inline uint16_t get16(const uint8_t *at)
{
    uint16_t x;
    memcpy(&x, at, 2);
    return x;
}

static inline void put32(uint8_t *at, uint32_t x)
{
    memcpy(at, &x, 4);
}

static inline void put16(uint8_t *at, uint32_t x)
{
    uint16_t y = (uint16_t)x;
    memcpy(at, &y, 2);
}

/* ---- Checks. A circuit that was checked has its counts here, with A and every site's own inputs. */

struct counted {
    const uint8_t *owners, *gates, *outputs;
    size_t i, g, o, a, own[4];
};

static inline struct bakebutton_answer refuse(size_t number, size_t place)
{
    struct bakebutton_answer answer = {number, place, 0};
    return answer;
}

static struct bakebutton_answer check(const uint8_t *file, size_t length, struct counted *c)
{
    if (length < 32)
        return refuse(1, 0);
    size_t i = get32(file + 4), g = get32(file + 8), o = get32(file + 12);
    if (i > 1024)
        return refuse(2, 0);
    if (g > 3072)
        return refuse(2, 1);
    if (o > 256)
        return refuse(2, 2);
    if (get32(file) != 32 + i + 6 * g + 2 * o || length != get32(file))
        return refuse(3, 0);
    if (get32(file + 16) != 32)
        return refuse(3, 16);
    if (get32(file + 20) != 32 + i)
        return refuse(3, 20);
    if (get32(file + 24) != 32 + i + 6 * g)
        return refuse(3, 24);
    if (get32(file + 28) != 0)
        return refuse(3, 28);

    const uint8_t *owners = file + 32, *gates = owners + i, *outputs = gates + 6 * g;
    size_t own[4] = {0}, a = 0;
    for (size_t k = 0; k < i; k++) {
        if (owners[k] - 1u > 2u)
            return refuse(4, k);
        own[owners[k]]++;
    }
    for (size_t k = 0; k < g; k++) {
        uint32_t both = get32(gates + 6 * k), kind = both & 0xffff, x = both >> 16, y = get16(gates + 6 * k + 4);
        size_t w = i + k;
        if (kind - 1 > 3 || x >= w || (kind == 3 ? y != 0 : y >= w))
            return refuse(5, k);
        a += !(kind & 1);
    }
    for (size_t k = 0; k < o; k++)
        if (get16(outputs + 2 * k) >= i + g)
            return refuse(6, k);
    c->owners = owners;
    c->gates = gates;
    c->outputs = outputs;
    c->i = i;
    c->g = g;
    c->o = o;
    c->a = a;
    memcpy(c->own, own, sizeof own);
    return refuse(0, 0);
}

/* The first byte above 1, or n. */
static size_t first_above(const uint8_t *s, size_t n)
{
    uint8_t any = 0;
    for (size_t k = 0; k < n; k++)
        any |= s[k];
    if (any <= 1)
        return n;
    size_t k = 0;
    while (s[k] <= 1)
        k++;
    return k;
}

/* A slice of bits: its fault's place, or a number above all places. */
static size_t bits_fault(const uint8_t *s, size_t length, size_t want)
{
    if (length != want)
        return want;
    size_t k = first_above(s, want);
    return k < want ? k : want + 1;
}

static struct bakebutton_answer check_given(const struct counted *c, const uint8_t *inputs, size_t inputs_length, const uint8_t *tapes,
                                            size_t tapes_length)
{
    size_t want = c->i, place = bits_fault(inputs, inputs_length, want);
    if (place <= want)
        return refuse(7, place);
    want = 2 * c->i + 6 * c->a;
    place = bits_fault(tapes, tapes_length, want);
    if (place <= want)
        return refuse(8, place);
    return refuse(0, 0);
}

struct bakebutton_counts_answer plain_check(const uint8_t *file, size_t file_length)
{
    struct counted c = {0};
    struct bakebutton_answer a = check(file, file_length, &c);
    struct bakebutton_counts_answer answer = {a.number, a.place, c.i, c.g, c.o};
    return answer;
}

/* ---- The run. The four bits of a deal are a word: first draw, second draw, second draw, what is left of the value. */

static inline uint32_t deal(const uint8_t *tape, uint32_t value)
{
    uint32_t x = tape[0], y = tape[1];
    return x | y << 8 | y << 16 | (value ^ x ^ y) << 24;
}

/* A site's product of two pairs, each a 16-bit word, first part low. */
static inline uint32_t product(uint32_t x, uint32_t y)
{
    uint32_t x0 = x & 1, x1 = x >> 8, y0 = y & 1, y1 = y >> 8;
    return (x0 & (y0 ^ y1)) ^ (x1 & y0);
}

/* The pair that a dealer keeps (its last bit, its first), what the next site gets, and the one after that. */
static inline uint32_t kept(uint32_t m)
{
    return m >> 24 | (m & 0xff) << 8;
}

static inline uint32_t to_next(uint32_t m)
{
    return m & 0xffff;
}

static inline uint32_t to_prev(uint32_t m)
{
    return m >> 16;
}

/* Inputs and gates on a line, or on none where line is null; the transcript is written where there is one. Gives the place behind. */
static inline size_t shares(const struct counted *c, const uint8_t *restrict inputs, const uint8_t *restrict tapes,
                            const uint8_t *restrict line, uint8_t *restrict transcript, uint8_t *restrict store)
{
    size_t w2 = 2 * (c->i + c->g), at = 0;
    uint8_t *part[4] = {0, store, store + w2, store + 2 * w2};
    const uint8_t *tape[4] = {0, tapes, tapes + 2 * (c->own[1] + c->a), tapes + 2 * (c->own[1] + c->a) + 2 * (c->own[2] + c->a)};

    for (size_t k = 0; k < c->i; k++) {
        unsigned s = c->owners[k], n = s % 3 + 1, p = n % 3 + 1;
        uint32_t m = deal(tape[s], inputs[k]), d = m ^ get32(line + at);
        tape[s] += 2;
        put32(transcript + at, d);
        at += 4;
        put16(part[s] + 2 * k, kept(m));
        put16(part[n] + 2 * k, to_next(d));
        put16(part[p] + 2 * k, to_prev(d));
    }
    uint8_t *p1 = part[1], *p2 = part[2], *p3 = part[3];
    const uint8_t *t1 = tape[1], *t2 = tape[2], *t3 = tape[3], *gate = c->gates;
    for (size_t k = 0; k < c->g; k++, gate += 6) {
        uint32_t both = get32(gate), kind = both & 0xffff;
        size_t x = 2 * (both >> 16), y = 2 * (size_t)get16(gate + 4), w = 2 * (c->i + k);
        if (kind == 1) {
            put16(p1 + w, get16(p1 + x) ^ get16(p1 + y));
            put16(p2 + w, get16(p2 + x) ^ get16(p2 + y));
            put16(p3 + w, get16(p3 + x) ^ get16(p3 + y));
        } else if (kind == 3) {
            put16(p1 + w, get16(p1 + x) ^ 0x0001);
            put16(p2 + w, get16(p2 + x));
            put16(p3 + w, get16(p3 + x) ^ 0x0100);
        } else {
            uint32_t f1 = kind == 4 ? 0x0001 : 0, f3 = kind == 4 ? 0x0100 : 0;
            uint32_t m1 = deal(t1, product(get16(p1 + x) ^ f1, get16(p1 + y) ^ f1));
            uint32_t m2 = deal(t2, product(get16(p2 + x), get16(p2 + y)));
            uint32_t m3 = deal(t3, product(get16(p3 + x) ^ f3, get16(p3 + y) ^ f3));
            uint32_t d1 = m1 ^ get32(line + at), d2 = m2 ^ get32(line + at + 4), d3 = m3 ^ get32(line + at + 8);
            t1 += 2;
            t2 += 2;
            t3 += 2;
            put32(transcript + at, d1);
            put32(transcript + at + 4, d2);
            put32(transcript + at + 8, d3);
            at += 12;
            put16(p1 + w, kept(m1) ^ to_next(d3) ^ to_prev(d2) ^ f1);
            put16(p2 + w, kept(m2) ^ to_next(d1) ^ to_prev(d3));
            put16(p3 + w, kept(m3) ^ to_next(d2) ^ to_prev(d1) ^ f3);
        }
    }
    return at;
}

struct bakebutton_answer plain_run(const uint8_t *file, size_t file_length, const uint8_t *inputs, size_t inputs_length,
                                   const uint8_t *tapes, size_t tapes_length, const uint8_t *line, size_t line_length,
                                   uint8_t *outputs, size_t outputs_length, uint8_t *transcript, size_t transcript_length,
                                   uint8_t *store, size_t store_length)
{
    struct counted c;
    struct bakebutton_answer answer = check(file, file_length, &c);
    if (answer.number)
        return answer;
    answer = check_given(&c, inputs, inputs_length, tapes, tapes_length);
    if (answer.number)
        return answer;
    size_t want = 4 * c.i + 12 * c.a + 6 * c.o, w2 = 2 * (c.i + c.g);
    size_t place = bits_fault(line, line_length, want);
    if (place <= want)
        return refuse(9, place);
    if (outputs_length != 3 * c.o)
        return refuse(10, 0);
    if (transcript_length != want)
        return refuse(10, 1);
    if (store_length != 3 * w2)
        return refuse(10, 2);

    size_t at = shares(&c, inputs, tapes, line, transcript, store);
    for (size_t k = 0; k < c.o; k++) {
        const uint8_t *pair = store + 2 * (size_t)get16(c.outputs + 2 * k);
        uint32_t g1 = get16(pair) ^ get16(line + at + 6 * k), g2 = get16(pair + w2) ^ get16(line + at + 6 * k + 2);
        uint32_t g3 = get16(pair + 2 * w2) ^ get16(line + at + 6 * k + 4);
        put16(transcript + at + 6 * k, g1);
        put16(transcript + at + 6 * k + 2, g2);
        put16(transcript + at + 6 * k + 4, g3);
        uint32_t sites = ((g2 >> 8 ^ g3) & 1) | ((g1 ^ g3 >> 8) & 1) << 1 | ((g1 >> 8 ^ g2) & 1) << 2;
        if (sites) {
            answer.number = 100;
            answer.place = k;
            answer.sites = sites;
            return answer;
        }
    }
    for (size_t k = 0; k < c.o; k++) {
        const uint8_t *pair = store + 2 * (size_t)get16(c.outputs + 2 * k), *copy = transcript + at + 6 * k;
        outputs[3 * k] = pair[0] ^ pair[1] ^ copy[3];
        outputs[3 * k + 1] = pair[w2] ^ pair[w2 + 1] ^ copy[0];
        outputs[3 * k + 2] = pair[2 * w2] ^ pair[2 * w2 + 1] ^ copy[1];
    }
    return answer;
}

/* ---- The view: the run's steps on a clean line, of which what reaches the site is kept. */

struct bakebutton_answer plain_view(const uint8_t *file, size_t file_length, const uint8_t *inputs, size_t inputs_length,
                                    const uint8_t *tapes, size_t tapes_length, size_t site, uint8_t *view, size_t view_length,
                                    uint8_t *store, size_t store_length)
{
    struct counted c;
    struct bakebutton_answer answer = check(file, file_length, &c);
    if (answer.number)
        return answer;
    answer = check_given(&c, inputs, inputs_length, tapes, tapes_length);
    if (answer.number)
        return answer;
    if (site - 1 > 2)
        return refuse(11, 0);
    size_t own = c.own[site], w2 = 2 * (c.i + c.g);
    if (view_length != 2 * c.i + own + 6 * c.a + 3 * c.o)
        return refuse(10, 0);
    if (store_length != 3 * w2)
        return refuse(10, 1);

    uint8_t *part[4] = {0, store, store + w2, store + 2 * w2};
    const uint8_t *tape[4] = {0, tapes, tapes + 2 * (c.own[1] + c.a), tapes + 2 * (c.own[1] + c.a) + 2 * (c.own[2] + c.a)};
    uint8_t *mine = view, *seen = view + own + 2 * (own + c.a);
    memcpy(view + own, tape[site], 2 * (own + c.a));

    for (size_t k = 0; k < c.i; k++) {
        unsigned s = c.owners[k], n = s % 3 + 1, p = n % 3 + 1;
        uint32_t m = deal(tape[s], inputs[k]);
        tape[s] += 2;
        put16(part[s] + 2 * k, kept(m));
        put16(part[n] + 2 * k, to_next(m));
        put16(part[p] + 2 * k, to_prev(m));
        if (s == site) {
            *mine++ = inputs[k];
        } else {
            put16(seen, n == site ? to_next(m) : to_prev(m));
            seen += 2;
        }
    }
    uint8_t *p1 = part[1], *p2 = part[2], *p3 = part[3];
    const uint8_t *t1 = tape[1], *t2 = tape[2], *t3 = tape[3], *gate = c.gates;
    for (size_t k = 0; k < c.g; k++, gate += 6) {
        uint32_t both = get32(gate), kind = both & 0xffff;
        size_t x = 2 * (both >> 16), y = 2 * (size_t)get16(gate + 4), w = 2 * (c.i + k);
        if (kind == 1) {
            put16(p1 + w, get16(p1 + x) ^ get16(p1 + y));
            put16(p2 + w, get16(p2 + x) ^ get16(p2 + y));
            put16(p3 + w, get16(p3 + x) ^ get16(p3 + y));
        } else if (kind == 3) {
            put16(p1 + w, get16(p1 + x) ^ 0x0001);
            put16(p2 + w, get16(p2 + x));
            put16(p3 + w, get16(p3 + x) ^ 0x0100);
        } else {
            uint32_t f1 = kind == 4 ? 0x0001 : 0, f3 = kind == 4 ? 0x0100 : 0;
            uint32_t m1 = deal(t1, product(get16(p1 + x) ^ f1, get16(p1 + y) ^ f1));
            uint32_t m2 = deal(t2, product(get16(p2 + x), get16(p2 + y)));
            uint32_t m3 = deal(t3, product(get16(p3 + x) ^ f3, get16(p3 + y) ^ f3));
            t1 += 2;
            t2 += 2;
            t3 += 2;
            put16(p1 + w, kept(m1) ^ to_next(m3) ^ to_prev(m2) ^ f1);
            put16(p2 + w, kept(m2) ^ to_next(m1) ^ to_prev(m3));
            put16(p3 + w, kept(m3) ^ to_next(m2) ^ to_prev(m1) ^ f3);
            /* senders 1, 2, 3; the site before sends to its next, the site after to the one before it */
            uint32_t first = site == 1 ? to_prev(m2) : site == 2 ? to_next(m1) : to_prev(m1);
            uint32_t last = site == 1 ? to_next(m3) : site == 2 ? to_prev(m3) : to_next(m2);
            put32(seen, first | last << 16);
            seen += 4;
        }
    }
    uint8_t *opened = view + view_length - c.o;
    for (size_t k = 0; k < c.o; k++) {
        const uint8_t *pair = store + 2 * (size_t)get16(c.outputs + 2 * k);
        uint8_t copy1, copy2;
        if (site == 1) {
            copy1 = pair[w2 + 1];
            copy2 = pair[2 * w2];
        } else if (site == 2) {
            copy1 = pair[0];
            copy2 = pair[2 * w2 + 1];
        } else {
            copy1 = pair[1];
            copy2 = pair[w2];
        }
        const uint8_t *own_pair = pair + (site - 1) * w2;
        seen[2 * k] = copy1;
        seen[2 * k + 1] = copy2;
        opened[k] = own_pair[0] ^ own_pair[1] ^ copy1;
    }
    return answer;
}

/* ---- Re-taping, from the site's own pairs and the plain values. */

/* Each kind's values for 00, 10, 01 and 11 from the lowest bit up: no branch by the kind. */
static const uint8_t truth[5] = {0, 0x6, 0x8, 0x5, 0xe};

static void plain_values(const struct counted *c, const uint8_t *restrict inputs, uint8_t *restrict values)
{
    const uint8_t *gate = c->gates;

    memcpy(values, inputs, c->i);
    for (size_t k = 0; k < c->g; k++, gate += 6) {
        uint32_t both = get32(gate), kind = both & 0xffff, x = values[both >> 16], y = values[get16(gate + 4)];
        values[c->i + k] = truth[kind] >> (x + 2 * y) & 1;
    }
}

struct bakebutton_answer plain_retape(const uint8_t *file, size_t file_length, const uint8_t *inputs, size_t inputs_length,
                                      const uint8_t *tapes, size_t tapes_length, const uint8_t *second, size_t second_length,
                                      size_t site, uint8_t *fresh, size_t fresh_length, uint8_t *room, size_t room_length)
{
    struct counted c;
    struct bakebutton_answer answer = check(file, file_length, &c);
    if (answer.number)
        return answer;
    answer = check_given(&c, inputs, inputs_length, tapes, tapes_length);
    if (answer.number)
        return answer;
    if (site - 1 > 2)
        return refuse(11, 0);
    size_t n = c.i + c.g;
    if (fresh_length != tapes_length)
        return refuse(10, 0);
    if (room_length != 4 * n)
        return refuse(10, 1);
    size_t place = bits_fault(second, second_length, c.i);
    if (place <= c.i)
        return refuse(12, place);

    uint8_t *was = room, *is = room + n, *pairs = room + 2 * n;
    plain_values(&c, inputs, was);
    plain_values(&c, second, is);
    for (size_t k = 0; k < c.i; k++)
        if (c.owners[k] == site && inputs[k] != second[k])
            return refuse(13, k);
    for (size_t k = 0; k < c.o; k++)
        if (was[get16(c.outputs + 2 * k)] != is[get16(c.outputs + 2 * k)])
            return refuse(13, c.i + k);

    /* The site's own tape and that of the site before it stay; the next site's first draws move with what it shares. */
    size_t next = site % 3 + 1, last = next % 3 + 1;
    size_t start[4] = {0, 0, 2 * (c.own[1] + c.a), 2 * (c.own[1] + c.a) + 2 * (c.own[2] + c.a)};
    memcpy(fresh, tapes, tapes_length);
    const uint8_t *t = tapes + start[site], *u = tapes + start[next], *v = tapes + start[last];
    uint8_t *moved = fresh + start[next];
    for (size_t k = 0; k < c.i; k++) {
        if (c.owners[k] == site) {
            put16(pairs + 2 * k, (uint32_t)(inputs[k] ^ t[0] ^ t[1]) | (uint32_t)t[0] << 8);
            t += 2;
        } else if (c.owners[k] == next) {
            put16(pairs + 2 * k, u[1] | (uint32_t)(inputs[k] ^ u[0] ^ u[1]) << 8);
            moved[0] = u[0] ^ inputs[k] ^ second[k];
            u += 2;
            moved += 2;
        } else {
            put16(pairs + 2 * k, get16(v));
            v += 2;
        }
    }
    const uint8_t *gate = c.gates;
    for (size_t k = 0; k < c.g; k++, gate += 6) {
        uint32_t both = get32(gate), kind = both & 0xffff;
        size_t x = both >> 16, y = get16(gate + 4), w = c.i + k;
        uint32_t px = get16(pairs + 2 * x), py = get16(pairs + 2 * y);
        uint32_t flip = site == 1 ? 0x0001 : site == 3 ? 0x0100 : 0;
        if (kind == 1) {
            put16(pairs + 2 * w, px ^ py);
        } else if (kind == 3) {
            put16(pairs + 2 * w, px ^ flip);
        } else {
            uint32_t o = kind == 4, f = o ? flip : 0;
            uint32_t a0 = (px ^ f) & 1, a1 = (px ^ f) >> 8, b0 = (py ^ f) & 1, b1 = (py ^ f) >> 8;
            uint32_t a2 = was[x] ^ o ^ a0 ^ a1, b2 = was[y] ^ o ^ b0 ^ b1;
            uint32_t mine = (a0 & (b0 ^ b1)) ^ (a1 & b0), theirs = (a1 & (b1 ^ b2)) ^ (a2 & b1);
            uint32_t change = (a1 & (uint32_t)(was[y] ^ is[y])) ^ ((uint32_t)(was[x] ^ is[x]) & b1);
            uint32_t first = mine ^ t[0] ^ t[1] ^ u[1] ^ v[0], other = t[0] ^ theirs ^ u[0] ^ u[1] ^ v[1];
            put16(pairs + 2 * w, (first | other << 8) ^ f);
            moved[0] = (uint8_t)(u[0] ^ change);
            t += 2;
            u += 2;
            v += 2;
            moved += 2;
        }
    }
    return answer;
}
