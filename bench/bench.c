/* Times the proved engine (libbakebutton.a) beside the plain one (engine.c), call by call, in one process.

       bench [ratios]
       bench call CIRCUIT CALL ENGINE

   A call is on one of the circuits or, of CALL 4, on one of the texts.
   A sample is a run of calls long enough for the clock. Samples of all circuits, both engines and all places take turns, so that whatever else
   the machine does falls on all of them alike; a time is the median of its samples, and a ratio the median of the ratios of samples taken side
   by side. Each engine is there PLACES times, 16 bytes apart from line to line: on some processors a loop is twice as slow where one of its
   jumps crosses a line of 32 bytes, which is the linker's doing and neither engine's. Of the places the one with the least median counts, for
   each call, circuit and engine. With `ratios` no times are printed: under an emulator they say nothing. With `call` one call is
   made at the last place, where nothing else is, for a counter of instructions to look at. */
#include "engine.h"
#include "texts.h"

#include <stdio.h>
#include <stdlib.h>
#include <string.h>
#include <time.h>

enum { SAMPLES = 61, SAMPLE_NS = 1000000, ENGINES = 2, CALLS = 4, FROM_TEXT = CALLS };

/* ---- Circuits */

struct circuit {
    char name[64];
    uint8_t file[BAKEBUTTON_FILE_BYTES_MAX];
    size_t length, inputs, gates, outputs;
};

static void put32(uint8_t *at, size_t x)
{
    for (unsigned n = 0; n < 4; n++)
        at[n] = (uint8_t)(x >> 8 * n);
}

static void put16(uint8_t *at, size_t x)
{
    at[0] = (uint8_t)x;
    at[1] = (uint8_t)(x >> 8);
}

static uint64_t state = 20267;

static size_t draw(size_t below)
{
    return drawn_below(&state, below);
}

static void begin(struct circuit *c, size_t inputs, size_t gates, size_t outputs)
{
    c->inputs = inputs;
    c->gates = gates;
    c->outputs = outputs;
    c->length = BAKEBUTTON_FILE_BYTES(inputs, gates, outputs);
    memset(c->file, 0, sizeof c->file);
    put32(c->file, c->length);
    put32(c->file + 4, inputs);
    put32(c->file + 8, gates);
    put32(c->file + 12, outputs);
    put32(c->file + 16, 32);
    put32(c->file + 20, 32 + inputs);
    put32(c->file + 24, 32 + inputs + 6 * gates);
}

static void gate(struct circuit *c, size_t k, size_t kind, size_t first, size_t second)
{
    uint8_t *at = c->file + 32 + c->inputs + 6 * k;
    put16(at, kind);
    put16(at + 2, first);
    put16(at + 4, second);
}

static void output(struct circuit *c, size_t k, size_t wire)
{
    put16(c->file + 32 + c->inputs + 6 * c->gates + 2 * k, wire);
}

/* Every gate an AND of two drawn lower wires, the last wires opened: the largest circuit, or a part of its size. */
static void all_and(struct circuit *c, const char *name, size_t inputs, size_t gates, size_t outputs)
{
    begin(c, inputs, gates, outputs);
    snprintf(c->name, sizeof c->name, "%s", name);
    for (size_t k = 0; k < inputs; k++)
        c->file[32 + k] = (uint8_t)(1 + k % 3);
    for (size_t k = 0; k < gates; k++)
        gate(c, k, BAKEBUTTON_AND, draw(inputs + k), draw(inputs + k));
    for (size_t k = 0; k < outputs; k++)
        output(c, k, inputs + gates - 1 - k);
}

/* The kind of every gate drawn from all four, its operands from the wires below it, the last wires opened. */
static void drawn(struct circuit *c, const char *name, size_t inputs, size_t gates, size_t outputs)
{
    all_and(c, name, inputs, gates, outputs);
    for (size_t k = 0; k < gates; k++) {
        size_t kind = 1 + draw(4), first = draw(inputs + k), second = draw(inputs + k);
        gate(c, k, kind, first, kind == BAKEBUTTON_NOT ? 0 : second);
    }
}

/* ---- 128 bits of site 1 and 128 of site 2: 1 where at most t positions differ. Counted by full adders of one AND each. */

static struct circuit *building;
static size_t made;

static size_t wire(size_t kind, size_t first, size_t second)
{
    gate(building, made, kind, first, second);
    return building->inputs + made++;
}

enum { BITS = 128, WIDTH = 8 };

/* Adds the counted bits of two halves; a number is WIDTH wires, lowest first, those above `wide` not there. */
static unsigned count_row(size_t row, size_t length, size_t number[WIDTH])
{
    if (length == 1) {
        number[0] = row;
        return 1;
    }
    size_t low[WIDTH], high[WIDTH], carry = 0;
    unsigned a = count_row(row, length / 2, low), b = count_row(row + length / 2, length - length / 2, high), n = a > b ? a : b;
    int carried = 0;
    for (unsigned k = 0; k < n; k++) {
        int x = k < a, y = k < b;
        if (x && y && carried) {
            size_t p = wire(BAKEBUTTON_XOR, low[k], carry), q = wire(BAKEBUTTON_XOR, high[k], carry);
            number[k] = wire(BAKEBUTTON_XOR, p, high[k]);
            carry = wire(BAKEBUTTON_XOR, wire(BAKEBUTTON_AND, p, q), carry);
        } else if (x && y) {
            number[k] = wire(BAKEBUTTON_XOR, low[k], high[k]);
            carry = wire(BAKEBUTTON_AND, low[k], high[k]);
            carried = 1;
        } else {
            size_t one = x ? low[k] : high[k];
            number[k] = carried ? wire(BAKEBUTTON_XOR, one, carry) : one;
            if (carried)
                carry = wire(BAKEBUTTON_AND, one, carry);
        }
    }
    if (carried)
        number[n++] = carry;
    return n;
}

static void hamming_gates(struct circuit *c, size_t t)
{
    size_t number[WIDTH + 1], above;

    building = c;
    made = 0;
    for (size_t k = 0; k < BITS; k++)
        wire(BAKEBUTTON_XOR, k, BITS + k);
    unsigned n = count_row(2 * BITS, BITS, number);
    /* above: the number is greater than t, from the lowest bit up */
    above = wire(BAKEBUTTON_XOR, 0, 0);
    for (unsigned k = 0; k < n; k++)
        above = wire((t >> k & 1) ? BAKEBUTTON_AND : BAKEBUTTON_OR, number[k], above);
    output(c, 0, wire(BAKEBUTTON_NOT, above, 0));
}

static void hamming(struct circuit *c, const char *name, size_t t)
{
    begin(c, 2 * BITS, 1024, 1);
    hamming_gates(c, t); /* once to count the gates */
    begin(c, 2 * BITS, made, 1);
    snprintf(c->name, sizeof c->name, "%s", name);
    for (size_t k = 0; k < 2 * BITS; k++)
        c->file[32 + k] = k < BITS ? 1 : 2;
    hamming_gates(c, t);
}

/* ---- The calls */

/* On a circuit, or on a text. */
struct job {
    struct circuit *c;
    const struct text *t;
    struct bakebutton_sizes_answer size;
    uint8_t inputs[BAKEBUTTON_INPUTS_BYTES_MAX], second[BAKEBUTTON_INPUTS_BYTES_MAX], tapes[BAKEBUTTON_TAPES_BYTES_MAX];
    uint8_t line[BAKEBUTTON_LINE_BYTES_MAX];
    /* what each engine leaves */
    uint8_t outputs[ENGINES][BAKEBUTTON_OPENED_BYTES_MAX], transcript[ENGINES][BAKEBUTTON_TRANSCRIPT_BYTES_MAX];
    uint8_t store[ENGINES][BAKEBUTTON_STORE_BYTES_MAX], view[ENGINES][BAKEBUTTON_VIEW_BYTES_MAX];
    uint8_t view_store[ENGINES][BAKEBUTTON_STORE_BYTES_MAX];
    uint8_t fresh[ENGINES][BAKEBUTTON_TAPES_BYTES_MAX], room[ENGINES][BAKEBUTTON_ROOM_BYTES_MAX];
    uint8_t file[ENGINES][BAKEBUTTON_FILE_ROOM_BYTES];
};

static const char *const call_names[CALLS + 1] = {"check", "run", "view", "re-taping", "file from a text"};
enum { SITE = 2 };

/* An engine's calls, as often as it was linked. */
struct calls {
    __typeof__(bakebutton_check) *check;
    __typeof__(bakebutton_run) *run;
    __typeof__(bakebutton_view) *view;
    __typeof__(bakebutton_retape) *retape;
    __typeof__(bakebutton_from_bristol) *from_bristol;
};

#ifndef PLACES
#define PLACES 1
static const struct calls engines[ENGINES][PLACES] = {
    {{bakebutton_check, bakebutton_run, bakebutton_view, bakebutton_retape, bakebutton_from_bristol}},
    {{plain_check, plain_run, plain_view, plain_retape, plain_from_bristol}},
};
#else
/* The script that links them puts a prefix before the names of each copy. */
#define DECLARED(at, name)                                                                                                               \
    extern __typeof__(bakebutton_check) at##name##_check;                                                                                \
    extern __typeof__(bakebutton_run) at##name##_run;                                                                                    \
    extern __typeof__(bakebutton_view) at##name##_view;                                                                                  \
    extern __typeof__(bakebutton_retape) at##name##_retape;                                                                              \
    extern __typeof__(bakebutton_from_bristol) at##name##_from_bristol;
#define COPY(at, name) {at##name##_check, at##name##_run, at##name##_view, at##name##_retape, at##name##_from_bristol}
#define COPIES(name) {COPY(at0_, name), COPY(at1_, name), COPY(at2_, name), COPY(at3_, name)}
DECLARED(at0_, bakebutton)
DECLARED(at1_, bakebutton)
DECLARED(at2_, bakebutton)
DECLARED(at3_, bakebutton)
DECLARED(at0_, plain)
DECLARED(at1_, plain)
DECLARED(at2_, plain)
DECLARED(at3_, plain)
static const struct calls engines[ENGINES][PLACES] = {COPIES(bakebutton), COPIES(plain)};
#endif

static size_t make_call(struct job *j, unsigned call, unsigned engine, unsigned place)
{
    struct circuit *c = j->c;
    struct bakebutton_sizes_answer *z = &j->size;
    const struct calls *of = &engines[engine][place];

    switch (call) {
    case 0:
        return of->check(c->file, c->length).number;
    case 1:
        return of->run(c->file, c->length, j->inputs, z->inputs, j->tapes, z->tapes, j->line, z->line, j->outputs[engine], z->outputs,
                       j->transcript[engine], z->transcript, j->store[engine], z->store).number;
    case 2:
        return of->view(c->file, c->length, j->inputs, z->inputs, j->tapes, z->tapes, SITE, j->view[engine], z->view[SITE - 1],
                        j->view_store[engine], z->store).number;
    case 3:
        return of->retape(c->file, c->length, j->inputs, z->inputs, j->tapes, z->tapes, j->second, z->inputs, SITE, j->fresh[engine],
                          z->tapes, j->room[engine], z->room).number;
    default:
        return of->from_bristol(j->t->bytes, j->t->length, j->t->owners, j->t->values, j->file[engine], sizeof j->file[engine]).number;
    }
}

static void fail(const char *what)
{
    fprintf(stderr, "bench: %s\n", what);
    exit(1);
}

static void draw_bits(uint8_t *at, size_t length)
{
    for (size_t k = 0; k < length; k++)
        at[k] = (uint8_t)draw(2);
}

/* Inputs, tapes and a clean line; second inputs that the site cannot tell from the first, other ones where some are found. */
static void prepare(struct job *j, struct circuit *c)
{
    memset(j, 0, sizeof *j);
    j->c = c;
    j->size = bakebutton_sizes(c->file, c->length);
    if (j->size.number)
        fail("a circuit is refused");
    draw_bits(j->inputs, j->size.inputs);
    draw_bits(j->tapes, j->size.tapes);
    for (unsigned tries = 0; tries < 200; tries++) {
        for (size_t k = 0; k < j->size.inputs; k++) {
            int turn = c->file[32 + k] != SITE && draw(200) < (tries < 100 ? 100 : 2);
            j->second[k] = j->inputs[k] ^ (uint8_t)turn;
        }
        if (make_call(j, 3, 1, 0) == 0)
            return;
    }
    memcpy(j->second, j->inputs, sizeof j->second);
}

static void hold(struct job *j)
{
    for (unsigned call = 0; call < CALLS; call++)
        for (unsigned engine = 0; engine < ENGINES; engine++)
            if (make_call(j, call, engine, 0) != 0)
                fail("a call is not good");
    if (memcmp(j->outputs[0], j->outputs[1], sizeof j->outputs[0]) || memcmp(j->transcript[0], j->transcript[1], sizeof j->transcript[0])
        || memcmp(j->store[0], j->store[1], sizeof j->store[0]) || memcmp(j->view[0], j->view[1], sizeof j->view[0])
        || memcmp(j->view_store[0], j->view_store[1], sizeof j->view_store[0])
        || memcmp(j->fresh[0], j->fresh[1], sizeof j->fresh[0]) || memcmp(j->room[0], j->room[1], sizeof j->room[0]))
        fail("the two engines leave unlike buffers");
}

/* A text is good, both make the same file of it, and its counts are those that the table tells. */
static void hold_text(struct job *j, const struct text *t)
{
    struct bakebutton_counts_answer counts;

    memset(j, 0, sizeof *j);
    j->t = t;
    for (unsigned engine = 0; engine < ENGINES; engine++)
        if (make_call(j, FROM_TEXT, engine, 0) != 0)
            fail("a text is refused");
    if (memcmp(j->file[0], j->file[1], sizeof j->file[0]))
        fail("the two engines make unlike files of a text");
    counts = bakebutton_check(j->file[0], BAKEBUTTON_FILE_BYTES(t->inputs, t->gates, t->outputs));
    if (counts.number || counts.inputs != t->inputs || counts.gates != t->gates || counts.outputs != t->outputs)
        fail("the file of a text has other counts");
}

/* ---- Time */

static double now(void)
{
    struct timespec t;
    clock_gettime(CLOCK_MONOTONIC, &t);
    return (double)t.tv_sec * 1e9 + (double)t.tv_nsec;
}

static volatile size_t kept_answer;

static double sample(struct job *j, unsigned call, unsigned engine, unsigned place, unsigned times)
{
    double start = now();
    for (unsigned n = 0; n < times; n++)
        kept_answer += make_call(j, call, engine, place);
    return (now() - start) / times;
}

static int rising(const void *a, const void *b)
{
    double x = *(const double *)a, y = *(const double *)b;
    return (x > y) - (x < y);
}

static double median(const double *of)
{
    double sorted[SAMPLES];
    memcpy(sorted, of, sizeof sorted);
    qsort(sorted, SAMPLES, sizeof *sorted, rising);
    return sorted[SAMPLES / 2];
}

static double median_ratio(const double *of, const double *to)
{
    double ratio[SAMPLES];
    for (unsigned n = 0; n < SAMPLES; n++)
        ratio[n] = of[n] / to[n];
    return median(ratio);
}

enum { CIRCUITS = 5 };

static double ns[CALLS + 1][CIRCUITS][ENGINES][PLACES][SAMPLES];

static void measure(struct job *jobs, unsigned count, unsigned call)
{
    unsigned times[CIRCUITS];

    for (unsigned c = 0; c < count; c++)
        times[c] = 1 + (unsigned)(SAMPLE_NS / (sample(&jobs[c], call, 1, 0, 9) + 1));
    for (unsigned n = 0; n < SAMPLES; n++)
        for (unsigned c = 0; c < count; c++)
            for (unsigned turn = 0; turn < ENGINES * PLACES; turn++) {
                unsigned engine = (turn + n) % ENGINES, place = turn / ENGINES;
                ns[call][c][engine][place][n] = sample(&jobs[c], call, engine, place, times[c]);
            }
}

/* The samples of the place with the least median. */
static const double *best(unsigned call, unsigned circuit, unsigned engine)
{
    unsigned found = 0;
    for (unsigned place = 1; place < PLACES; place++)
        if (median(ns[call][circuit][engine][place]) < median(ns[call][circuit][engine][found]))
            found = place;
    return ns[call][circuit][engine][found];
}

/* ---- Tables */

static void print_row(const char *name, size_t inputs, size_t gates, size_t outputs, unsigned call, unsigned circuit, int ratios)
{
    const double *proved = best(call, circuit, 0), *plain = best(call, circuit, 1);

    printf("| %s | %zu, %zu, %zu | %s |", name, inputs, gates, outputs, call_names[call]);
    if (!ratios)
        printf(" %.1f | %.1f |", median(proved) / 1000, median(plain) / 1000);
    printf(" %.2f |\n", median_ratio(proved, plain));
}

static void print_growth(void)
{
    printf("\n| call | proved: whole to half | half to a quarter | C: whole to half | half to a quarter |\n|---|---|---|---|---|\n");
    for (unsigned call = 0; call < CALLS; call++) {
        printf("| %s |", call_names[call]);
        for (unsigned engine = 0; engine < ENGINES; engine++)
            printf(" %.2f | %.2f |", median_ratio(best(call, 0, engine), best(call, 1, engine)),
                   median_ratio(best(call, 1, engine), best(call, 2, engine)));
        printf("\n");
    }
}

static struct circuit circuits[CIRCUITS];
static struct text texts[TEXTS];
static struct job jobs[CIRCUITS], text_jobs[TEXTS];

static void prepare_all(void)
{
    all_and(&circuits[0], "largest, all AND", 1024, 3072, 256);
    all_and(&circuits[1], "half of it", 512, 1536, 128);
    all_and(&circuits[2], "a quarter of it", 256, 768, 64);
    drawn(&circuits[3], "largest, drawn kinds", 1024, 3072, 256);
    hamming(&circuits[4], "128-bit Hamming", 32);
    for (unsigned c = 0; c < CIRCUITS; c++) {
        prepare(&jobs[c], &circuits[c]);
        hold(&jobs[c]);
    }
    if (!make_texts(texts))
        fail("the stored adder cannot be read");
    for (unsigned t = 0; t < TEXTS; t++)
        hold_text(&text_jobs[t], &texts[t]);
}

int main(int count, char **words)
{
    int ratios = count > 1 && !strcmp(words[1], "ratios");

    prepare_all();
    if (count == 5 && !strcmp(words[1], "call")) {
        unsigned call = (unsigned)(words[3][0] - '0'), which = (unsigned)(words[2][0] - '0');
        return (int)make_call(call == FROM_TEXT ? &text_jobs[which] : &jobs[which], call, (unsigned)(words[4][0] - '0'), PLACES - 1);
    }
    for (unsigned call = 0; call < CALLS; call++)
        measure(jobs, CIRCUITS, call);
    measure(text_jobs, TEXTS, FROM_TEXT);

    printf("| circuit | I, G, O | call |%s proved to C |\n|---|---|---|%s---|\n", ratios ? "" : " proved, µs | C, µs |",
           ratios ? "" : "---|---|");
    for (unsigned c = 0; c < CIRCUITS; c++)
        for (unsigned call = 0; call < CALLS; call++)
            print_row(circuits[c].name, circuits[c].inputs, circuits[c].gates, circuits[c].outputs, call, c, ratios);
    for (unsigned t = 0; t < TEXTS; t++)
        print_row(texts[t].name, texts[t].inputs, texts[t].gates, texts[t].outputs, FROM_TEXT, t, ratios);
    print_growth();
    return 0;
}
