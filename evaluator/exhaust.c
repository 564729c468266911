/* The exhaustive test of re-taping, and of runs on a clean line.

   It takes every circuit of at most two inputs and two gates, with no output,
   with each wire as the one output, and with two outputs; every site; every
   pair of first and second inputs; and first tapes drawn by a generator with
   a fixed seed.  For the second inputs all tapes there are get tried, and
   "exactly one set of tapes gives that site the same view", the one that is
   returned; or none does, and refusal 13 says so.  64 tapes are tried at
   once, one in each lane of a word, by the same steps as everywhere. */
#include "evaluator.h"

#include <stdio.h>
#include <stdlib.h>
#include <string.h>

#define BIT uint64_t
#define BIT_ONE UINT64_MAX
#include "steps.h"

enum {
    MOST_INPUTS = 2,
    MOST_GATES = 2,
    MOST_OUTPUTS = 2,
    MOST_WIRES = MOST_INPUTS + MOST_GATES,
    MOST_SETS = 1 << MOST_INPUTS, /* sets of inputs */
    MOST_TAPES = 2 * MOST_INPUTS + 6 * MOST_GATES,
    MOST_LINE = 4 * MOST_INPUTS + 12 * MOST_GATES + 6 * MOST_OUTPUTS,
    MOST_VIEW = 3 * MOST_INPUTS + 6 * MOST_GATES + 3 * MOST_OUTPUTS,
    MOST_FILE = 32 + MOST_INPUTS + 6 * MOST_GATES + 2 * MOST_OUTPUTS,
    MOST_FIRSTS = 3, /* sets of first tapes */
    LANES = 64
};

/* A set of inputs or of tapes is also held as a number: bit n of it is byte n
   of the slice. */
struct retaped {
    struct answer answer;
    uint32_t tapes;
};

/* A circuit with its outputs, and what the calls answer for it. */
struct trial {
    uint8_t bytes[MOST_FILE];
    struct slice file;
    struct circuit c;
    size_t tapes;              /* how many bits the tapes have */
    unsigned sets;             /* how many sets of inputs there are */
    unsigned firsts;           /* how many sets of first tapes are taken */
    uint32_t first[MOST_FIRSTS];
    uint8_t plain[MOST_SETS][MOST_WIRES];
    bit view[MOST_FIRSTS][MOST_SETS][4][MOST_VIEW];
    struct retaped straight[MOST_FIRSTS][4][MOST_SETS][MOST_SETS];
};

/* A run of all lanes at once. */
struct lanes {
    struct run run;
    bit inputs[MOST_INPUTS], tapes[MOST_TAPES];
    bit store[6 * MOST_WIRES], transcript[MOST_LINE], opened[3 * MOST_OUTPUTS];
    uint8_t to[MOST_LINE];
    const bit *place[4][MOST_VIEW];
};

/* How many tapes gave a site its first view, and the last of them. */
struct finding {
    unsigned count;
    uint32_t tapes;
};

static unsigned long circuits, files, retapings, tried;

static uint32_t draw(void)
{
    static uint64_t state = 0x9E3779B97F4A7C15u;
    state ^= state << 13;
    state ^= state >> 7;
    state ^= state << 17;
    return (uint32_t)(state >> 32);
}

static void fail(const struct trial *t, const char *what)
{
    printf("exhaust: %s, circuit", what);
    for (size_t n = 4; n < t->file.length; n++)
        if (n < 16 || n >= 32)
            printf(" %u", t->bytes[n]);
    putchar('\n');
    exit(1);
}

static void must(const struct trial *t, int holds, const char *what)
{
    if (!holds)
        fail(t, what);
}

static struct slice spread(uint32_t number, uint8_t *bytes, size_t length)
{
    struct slice slice = {bytes, length};
    for (size_t n = 0; n < length; n++)
        bytes[n] = number >> n & 1;
    return slice;
}

static uint32_t gather(struct slice slice)
{
    uint32_t number = 0;
    for (size_t n = 0; n < slice.length; n++)
        number |= (uint32_t)slice.at[n] << n;
    return number;
}

static bit in_all_lanes(unsigned value)
{
    return value ? BIT_ONE : 0;
}

static void take_view(struct trial *t, unsigned f, unsigned x, unsigned s)
{
    uint8_t in[MOST_INPUTS], tape[MOST_TAPES], seen[MOST_VIEW];
    uint8_t pairs[6 * MOST_WIRES];
    struct slice view = {seen, view_length(&t->c, s)};
    struct slice store = {pairs, 6 * wires(&t->c)};
    struct answer answer =
        view_call(t->file, spread(x, in, t->c.inputs),
                  spread(t->first[f], tape, t->tapes), s, view, store);

    must(t, answer.outcome == GOOD, "a view is refused");
    for (size_t n = 0; n < view.length; n++)
        t->view[f][x][s][n] = in_all_lanes(seen[n]);
}

/* The site's part of the store of a clean run. */
static void take_pairs(struct trial *t, unsigned x, uint32_t tapes, unsigned s,
                       uint8_t *pairs)
{
    uint8_t in[MOST_INPUTS], tape[MOST_TAPES], seen[MOST_VIEW];
    uint8_t all[6 * MOST_WIRES];
    struct slice view = {seen, view_length(&t->c, s)};
    struct slice store = {all, 6 * wires(&t->c)};

    view_call(t->file, spread(x, in, t->c.inputs),
              spread(tapes, tape, t->tapes), s, view, store);
    memcpy(pairs, all + 2 * wires(&t->c) * (s - 1), 2 * wires(&t->c));
}

static struct retaped retape(struct trial *t, unsigned x, uint32_t tapes,
                             unsigned y, unsigned s, uint8_t *room)
{
    uint8_t in[MOST_INPUTS], other[MOST_INPUTS], tape[MOST_TAPES];
    uint8_t new_tape[MOST_TAPES] = {0};
    struct slice found = {new_tape, t->tapes};
    struct slice work = {room, 4 * wires(&t->c)};
    struct retaped result;

    result.answer = retape_call(t->file, spread(x, in, t->c.inputs),
                                spread(tapes, tape, t->tapes),
                                spread(y, other, t->c.inputs), s, found, work);
    result.tapes = gather(found);
    retapings++;
    return result;
}

/* "Where own or opened bits change, no such tapes exist and it says so":
   found here from the inputs and from the ends of the two views. */
static struct answer expected(const struct trial *t, unsigned x, unsigned y,
                              unsigned s)
{
    size_t opened = view_length(&t->c, s) - t->c.outputs;

    for (uint32_t n = 0; n < t->c.inputs; n++)
        if (owner_at(&t->c, n) == s && ((x ^ y) >> n & 1))
            return refused(13, n);
    for (uint32_t n = 0; n < t->c.outputs; n++)
        if (t->view[0][x][s][opened + n] != t->view[0][y][s][opened + n])
            return refused(13, t->c.inputs + n);
    return good();
}

static int same_answer(struct answer a, struct answer b)
{
    return a.outcome == b.outcome
        && (a.outcome == GOOD || (a.number[0] == b.number[0]
                                  && a.number[1] == b.number[1]));
}

/* The work room: both sets of plain values, and the site's pairs, which are
   the same before and after. */
static void check_room(struct trial *t, unsigned f, unsigned x, unsigned y,
                       unsigned s, const uint8_t *room)
{
    struct retaped *r = &t->straight[f][s][x][y];
    size_t w = wires(&t->c);
    uint8_t pairs[2 * MOST_WIRES];

    must(t, !memcmp(room, t->plain[x], w), "first plain values");
    must(t, !memcmp(room + w, t->plain[y], w), "second plain values");
    if (r->answer.outcome == REFUSED) {
        for (size_t n = 2 * w; n < 4 * w; n++)
            must(t, room[n] == 0xA5, "pairs are written at 13");
        return;
    }
    take_pairs(t, x, t->first[f], s, pairs);
    must(t, !memcmp(room + 2 * w, pairs, 2 * w), "pairs of the first run");
    take_pairs(t, y, r->tapes, s, pairs);
    must(t, !memcmp(room + 2 * w, pairs, 2 * w), "pairs of the second run");
}

/* All re-tapings of one set of first tapes and one site, each held to whether
   it should be refused and where. */
static void go_straight(struct trial *t, unsigned f, unsigned s)
{
    for (unsigned x = 0; x < t->sets; x++)
        for (unsigned y = 0; y < t->sets; y++) {
            uint8_t room[4 * MOST_WIRES];
            struct retaped *r = &t->straight[f][s][x][y];
            memset(room, 0xA5, sizeof room);
            *r = retape(t, x, t->first[f], y, s, room);
            must(t, same_answer(r->answer, expected(t, x, y, s)),
                 "13 where it should not be, or not where it should");
            check_room(t, f, x, y, s, room);
        }
}

/* "Going back returns the first tapes; going by way of a third such set of
   inputs returns what going straight does."  From x by z to y; where y is x,
   that is going back. */
static void go_by_a_third(struct trial *t, unsigned f, unsigned s, unsigned x,
                          unsigned y, unsigned z)
{
    struct retaped *straight = t->straight[f][s][x];
    uint8_t room[4 * MOST_WIRES];
    struct retaped end;

    if (straight[y].answer.outcome == REFUSED
        || straight[z].answer.outcome == REFUSED)
        return;
    end = retape(t, z, straight[z].tapes, y, s, room);
    must(t, end.answer.outcome == GOOD, "a third set is refused");
    must(t, end.tapes == straight[y].tapes, "a third set leads elsewhere");
    if (x == y)
        must(t, end.tapes == t->first[f], "going back leads elsewhere");
}

static void ask_calls(struct trial *t, unsigned f)
{
    for (unsigned s = 1; s <= 3; s++) {
        for (unsigned x = 0; x < t->sets; x++)
            take_view(t, f, x, s);
        go_straight(t, f, s);
        for (unsigned n = 0; n < t->sets * t->sets * t->sets; n++)
            go_by_a_third(t, f, s, n % t->sets, n / t->sets % t->sets,
                          n / t->sets / t->sets);
    }
}

/* Makes the lanes ready for the second inputs y, and finds where the bits of
   each site's view will stand. */
static void ready_lanes(struct trial *t, struct lanes *l, unsigned y)
{
    struct run *r = &l->run;

    memset(l, 0, sizeof *l);
    r->circuit = &t->c;
    r->inputs = l->inputs;
    r->tapes = l->tapes;
    r->store = l->store;
    r->transcript = l->transcript;
    r->to = l->to;
    r->opened = l->opened;
    for (uint32_t n = 0; n < t->c.inputs; n++)
        l->inputs[n] = in_all_lanes(y >> n & 1);
    run_through(r);
    must(t, r->at.sent == line_length(&t->c), "too many or too few bits sent");
    for (unsigned s = 1; s <= 3; s++)
        must(t, view_places(r, s, l->place[s]) == view_length(&t->c, s),
             "a view of another length");
}

/* Lane i of block b has the tapes with number 64b + i. */
static void lay_tapes(struct lanes *l, size_t tapes, uint32_t block)
{
    static const bit low[6] = {
        0xAAAAAAAAAAAAAAAAu, 0xCCCCCCCCCCCCCCCCu, 0xF0F0F0F0F0F0F0F0u,
        0xFF00FF00FF00FF00u, 0xFFFF0000FFFF0000u, 0xFFFFFFFF00000000u,
    };
    for (size_t n = 0; n < tapes; n++)
        l->tapes[n] = n < 6 ? low[n] : in_all_lanes(block >> (n - 6) & 1);
}

/* The lanes in which the site has this view. */
static bit same_view(const bit *const *place, const bit *view, size_t length,
                     bit lanes)
{
    for (size_t n = 0; n < length && lanes; n++)
        lanes &= ~(*place[n] ^ view[n]);
    return lanes;
}

static void note(struct finding *finding, bit lanes, uint32_t block)
{
    for (unsigned lane = 0; lane < LANES; lane++)
        if (lanes >> lane & 1) {
            finding->count++;
            finding->tapes = LANES * block + lane;
        }
}

/* "On an undisturbed line each accepted circuit opens at all three sites to
   its plain Boolean value", with all tapes. */
static void check_opened(struct trial *t, const struct lanes *l, unsigned y,
                         uint32_t end)
{
    must(t, end == t->c.outputs, "a site objects on a clean line");
    for (uint32_t n = 0; n < t->c.outputs; n++) {
        bit value = in_all_lanes(t->plain[y][output_at(&t->c, n)]);
        for (unsigned k = 0; k < 3; k++)
            must(t, l->opened[3 * n + k] == value, "a wrong bit is opened");
    }
}

static void try_block(struct trial *t, struct lanes *l, unsigned y,
                      uint32_t block,
                      struct finding found[MOST_FIRSTS][MOST_SETS][4])
{
    bit all = t->tapes < 6 ? ((bit)1 << (1u << t->tapes)) - 1 : BIT_ONE;

    lay_tapes(l, t->tapes, block);
    check_opened(t, l, y, run_through(&l->run));
    for (unsigned s = 1; s <= 3; s++)
        for (unsigned f = 0; f < t->firsts; f++)
            for (unsigned x = 0; x < t->sets; x++) {
                bit lanes = same_view(l->place[s], t->view[f][x][s],
                                      view_length(&t->c, s), all);
                if (lanes)
                    note(&found[f][x][s], lanes, block);
            }
}

static void hold(struct trial *t, struct retaped r, struct finding found)
{
    if (r.answer.outcome == REFUSED) {
        must(t, found.count == 0, "refused, and there are tapes");
    } else {
        must(t, found.count == 1, "not exactly one set of tapes");
        must(t, found.tapes == r.tapes, "other tapes than those returned");
    }
}

static void try_all_tapes(struct trial *t, unsigned y)
{
    struct finding found[MOST_FIRSTS][MOST_SETS][4] = {{{{0, 0}}}};
    uint32_t blocks = t->tapes < 6 ? 1 : (uint32_t)1 << (t->tapes - 6);
    struct lanes lanes;

    ready_lanes(t, &lanes, y);
    for (uint32_t block = 0; block < blocks; block++)
        try_block(t, &lanes, y, block, found);
    for (unsigned s = 1; s <= 3; s++)
        for (unsigned f = 0; f < t->firsts; f++)
            for (unsigned x = 0; x < t->sets; x++)
                hold(t, t->straight[f][s][x][y], found[f][x][s]);
    tried += (unsigned long)1 << t->tapes;
}

static void try_file(struct trial *t)
{
    must(t, check_circuit(t->file, &t->c).outcome == GOOD, "refused");
    files++;
    t->tapes = tapes_length(&t->c);
    t->sets = 1u << t->c.inputs;
    t->firsts = t->tapes == MOST_TAPES ? 1 : MOST_FIRSTS;
    for (unsigned x = 0; x < t->sets; x++) {
        uint8_t in[MOST_INPUTS];
        struct slice values = {t->plain[x], wires(&t->c)};
        plain_call(t->file, spread(x, in, t->c.inputs), values);
    }
    for (unsigned f = 0; f < t->firsts; f++) {
        t->first[f] = draw() & (((uint32_t)1 << t->tapes) - 1);
        ask_calls(t, f);
    }
    for (unsigned y = 0; y < t->sets; y++)
        try_all_tapes(t, y);
}

/* A circuit as it is made up, before it is a file. */
struct draft {
    unsigned inputs, gates, outputs;
    unsigned owner[MOST_INPUTS], output[MOST_OUTPUTS];
    struct gate gate[MOST_GATES];
};

static void write_number(uint8_t *at, uint32_t number, unsigned bytes)
{
    for (unsigned n = 0; n < bytes; n++)
        at[n] = (uint8_t)(number >> 8 * n);
}

static void try_draft(const struct draft *d)
{
    static struct trial t;
    unsigned gates = 32 + d->inputs, outputs = gates + 6 * d->gates;
    unsigned length = outputs + 2 * d->outputs;
    uint32_t field[8] = {length, d->inputs, d->gates, d->outputs,
                         32, gates, outputs, 0};

    t.file.at = t.bytes;
    t.file.length = length;
    for (unsigned n = 0; n < 8; n++)
        write_number(t.bytes + 4 * n, field[n], 4);
    for (unsigned n = 0; n < d->inputs; n++)
        write_number(t.bytes + 32 + n, d->owner[n], 1);
    for (unsigned n = 0; n < d->gates; n++) {
        write_number(t.bytes + gates + 6 * n, d->gate[n].kind, 2);
        write_number(t.bytes + gates + 6 * n + 2, d->gate[n].first, 2);
        write_number(t.bytes + gates + 6 * n + 4, d->gate[n].second, 2);
    }
    for (unsigned n = 0; n < d->outputs; n++)
        write_number(t.bytes + outputs + 2 * n, d->output[n], 2);
    try_file(&t);
}

static int has_two_products(const struct draft *d)
{
    unsigned products = 0;
    for (unsigned g = 0; g < d->gates; g++)
        products += d->gate[g].kind == AND || d->gate[g].kind == OR;
    return products == 2;
}

/* No output, each wire alone, and two outputs: all pairs of wires, or one
   pair that is drawn where there are 65,536 tapes to be tried. */
static void choose_outputs(struct draft *d)
{
    unsigned w = d->inputs + d->gates;
    unsigned pairs = w * w, only = w ? draw() % pairs : 0;

    circuits++;
    d->outputs = 0;
    try_draft(d);
    d->outputs = 1;
    for (d->output[0] = 0; d->output[0] < w; d->output[0]++)
        try_draft(d);
    d->outputs = 2;
    for (unsigned n = 0; n < pairs; n++) {
        if (n != only && has_two_products(d))
            continue;
        d->output[0] = n / w;
        d->output[1] = n % w;
        try_draft(d);
    }
}

static void choose_gates(struct draft *d, unsigned gates)
{
    unsigned lower = d->inputs + gates;

    d->gates = gates;
    choose_outputs(d);
    if (gates == MOST_GATES)
        return;
    for (unsigned kind = XOR; kind <= OR; kind++)
        for (unsigned first = 0; first < lower; first++)
            for (unsigned second = 0; second < lower; second++) {
                struct gate gate = {(uint16_t)kind, (uint16_t)first,
                                    (uint16_t)second};
                if (kind == NOT && second > 0)
                    continue;
                d->gate[gates] = gate;
                choose_gates(d, gates + 1);
            }
    d->gates = gates;
}

static void choose_inputs(struct draft *d, unsigned inputs)
{
    d->inputs = inputs;
    choose_gates(d, 0);
    if (inputs == MOST_INPUTS)
        return;
    for (unsigned owner = 1; owner <= 3; owner++) {
        d->owner[inputs] = owner;
        choose_inputs(d, inputs + 1);
    }
}

int main(void)
{
    struct draft draft = {0};

    choose_inputs(&draft, 0);
    printf("exhaust: %lu circuits, %lu with their outputs, %lu re-tapings, "
           "%lu tapes tried\n", circuits, files, retapings, tried);
    return 0;
}
