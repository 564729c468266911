#include "evaluator.h"

#include <stdio.h>
#include <stdlib.h>
#include <string.h>

#define BIT uint8_t
#define BIT_ONE 1
#include "steps.h"

/* Memory of the evaluator's own, never empty, so that no pointer is null. */
static void *own_memory(size_t length)
{
    void *at = malloc(length ? length : 1);
    if (!at) {
        fputs("no memory\n", stderr);
        exit(2);
    }
    return at;
}

static void copy(uint8_t *to, const uint8_t *from, size_t length)
{
    if (length)
        memcpy(to, from, length);
}

static void equip(struct run *r, const struct circuit *c, const bit *inputs,
                  const bit *tapes, const bit *line)
{
    r->circuit = c;
    r->inputs = inputs;
    r->tapes = tapes;
    r->line = line;
    r->store = own_memory(6 * wires(c));
    r->transcript = own_memory(line_length(c));
    r->to = own_memory(line_length(c));
    r->opened = own_memory(3 * c->outputs);
    begin(r);
}

static void clear(struct run *r)
{
    free(r->store);
    free(r->transcript);
    free(r->to);
    free(r->opened);
}

/* "wrong length, else a byte above 1 | wanted length, else index" */
static struct answer check_bits(uint32_t number, struct slice bits,
                                size_t wanted)
{
    if (bits.length != wanted)
        return refused(number, (uint32_t)wanted);
    for (size_t n = 0; n < wanted; n++)
        if (bits.at[n] > 1)
            return refused(number, (uint32_t)n);
    return good();
}

/* "a result buffer not exactly its length | buffer number".  What stands in
   it before the call isn't looked at. */
static struct answer check_buffer(uint32_t buffer, struct slice lent,
                                  size_t wanted)
{
    return lent.length == wanted ? good() : refused(10, buffer);
}

/* "site not 1 to 3 | 0" */
static struct answer check_site(uint32_t site)
{
    return site >= 1 && site <= 3 ? good() : refused(11, 0);
}

/* Checks 1 to 8, which run, view, re-taping and the listing have in common. */
static struct answer check_given(struct slice file, struct slice inputs,
                                 struct slice tapes, struct circuit *c)
{
    struct answer answer = check_circuit(file, c);
    if (answer.outcome == GOOD)
        answer = check_bits(7, inputs, c->inputs);
    if (answer.outcome == GOOD)
        answer = check_bits(8, tapes, tapes_length(c));
    return answer;
}

static struct answer counts(struct answer answer, const struct circuit *c)
{
    if (answer.outcome != GOOD)
        return answer;
    return good_with(3, c->inputs, c->gates, c->outputs);
}

struct answer open_call(struct slice file)
{
    struct circuit c = {0};
    return counts(check_header(file, &c), &c);
}

struct answer check_call(struct slice file)
{
    struct circuit c = {0};
    return counts(check_circuit(file, &c), &c);
}

/* "A gate, owner or output number not below its count gets 5, 4 or 6, place
   that count." */
struct answer gate_call(struct slice file, uint32_t n)
{
    struct circuit c;
    struct gate gate;
    struct answer answer = check_header(file, &c);

    if (answer.outcome != GOOD)
        return answer;
    if (n >= c.gates)
        return refused(5, c.gates);
    gate = gate_at(&c, n);
    return good_with(3, gate.kind, gate.first, gate.second);
}

struct answer owner_call(struct slice file, uint32_t n)
{
    struct circuit c;
    struct answer answer = check_header(file, &c);

    if (answer.outcome != GOOD)
        return answer;
    if (n >= c.inputs)
        return refused(4, c.inputs);
    return good_with(1, owner_at(&c, n), 0, 0);
}

struct answer output_call(struct slice file, uint32_t n)
{
    struct circuit c;
    struct answer answer = check_header(file, &c);

    if (answer.outcome != GOOD)
        return answer;
    if (n >= c.outputs)
        return refused(6, c.outputs);
    return good_with(1, output_at(&c, n), 0, 0);
}

/* "The circuit is read through a reader that keeps the caller's file ..."
   It "answers the stored numbers as they stand", which are the file's: the
   counts that a reader has beside it may be anything. */
struct answer gate_read_call(struct slice file, struct slice counts,
                             uint32_t n)
{
    (void)counts;
    return gate_call(file, n);
}

struct answer owner_read_call(struct slice file, struct slice counts,
                              uint32_t n)
{
    (void)counts;
    return owner_call(file, n);
}

struct answer output_read_call(struct slice file, struct slice counts,
                               uint32_t n)
{
    (void)counts;
    return output_call(file, n);
}

/* The plain Boolean values of all wires, by their meaning and without any
   sharing. */
static void plain_values(const struct circuit *c, const uint8_t *inputs,
                         uint8_t *value)
{
    copy(value, inputs, c->inputs);
    for (uint32_t g = 0; g < c->gates; g++) {
        struct gate gate = gate_at(c, g);
        uint8_t *made = value + c->inputs + g;
        int x = value[gate.first] == 1;
        int y = gate.kind != NOT && value[gate.second] == 1;

        switch (gate.kind) {
        case XOR: *made = x != y; break;
        case AND: *made = x && y; break;
        case NOT: *made = !x; break;
        default:  *made = x || y; break;
        }
    }
}

struct answer plain_call(struct slice file, struct slice inputs,
                         struct slice values)
{
    struct circuit c;
    struct answer answer = check_circuit(file, &c);

    if (answer.outcome == GOOD)
        answer = check_bits(7, inputs, c.inputs);
    if (answer.outcome == GOOD)
        answer = check_buffer(0, values, wires(&c));
    if (answer.outcome == GOOD)
        plain_values(&c, inputs.at, values.at);
    return answer;
}

/* "It gives the output's number and the objecting sites as a sum of 1, 2 and
   4 for sites 1, 2 and 3." */
static struct answer objection(const struct run *r, uint32_t output)
{
    return aborted(output, r->objects[1] + 2u * r->objects[2]
                           + 4u * r->objects[3]);
}

struct answer run_call(struct slice file, struct slice inputs,
                       struct slice tapes, struct slice line,
                       struct slice outputs, struct slice transcript,
                       struct slice store)
{
    struct circuit c;
    struct run r;
    uint32_t end;
    struct answer answer = check_given(file, inputs, tapes, &c);

    if (answer.outcome == GOOD)
        answer = check_bits(9, line, line_length(&c));
    if (answer.outcome == GOOD)
        answer = check_buffer(0, outputs, 3 * c.outputs);
    if (answer.outcome == GOOD)
        answer = check_buffer(1, transcript, line_length(&c));
    if (answer.outcome == GOOD)
        answer = check_buffer(2, store, 6 * wires(&c));
    if (answer.outcome != GOOD)
        return answer;

    equip(&r, &c, inputs.at, tapes.at, line.at);
    end = run_through(&r);
    /* "the transcript holds everything through that opening's six bits and
       its rest is unchanged; the store is complete" */
    copy(transcript.at, r.transcript, r.at.sent);
    copy(store.at, r.store, 6 * wires(&c));
    if (end < c.outputs)
        answer = objection(&r, end);
    else
        copy(outputs.at, r.opened, 3 * c.outputs);
    clear(&r);
    return answer;
}

struct answer view_call(struct slice file, struct slice inputs,
                        struct slice tapes, uint32_t site,
                        struct slice view, struct slice store)
{
    struct circuit c;
    struct run r;
    const bit **place;
    size_t length;
    struct answer answer = check_given(file, inputs, tapes, &c);

    if (answer.outcome == GOOD)
        answer = check_site(site);
    if (answer.outcome == GOOD)
        answer = check_buffer(0, view, view_length(&c, site));
    if (answer.outcome == GOOD)
        answer = check_buffer(1, store, 6 * wires(&c));
    if (answer.outcome != GOOD)
        return answer;

    equip(&r, &c, inputs.at, tapes.at, NULL);
    run_through(&r);
    place = own_memory(view.length * sizeof *place);
    length = view_places(&r, site, place);
    for (size_t n = 0; n < length; n++)
        view.at[n] = *place[n];
    copy(store.at, r.store, 6 * wires(&c));
    free(place);
    clear(&r);
    return answer;
}

/* "an own input differs, else an opened bit differs | input wire, else
   I + output number".  `first` and `second` are the plain values of all
   wires, of which the inputs are the lowest. */
static struct answer check_same(const struct circuit *c, unsigned site,
                                const uint8_t *first, const uint8_t *second)
{
    for (uint32_t n = 0; n < c->inputs; n++)
        if (owner_at(c, n) == site && first[n] != second[n])
            return refused(13, n);
    for (uint32_t n = 0; n < c->outputs; n++)
        if (first[output_at(c, n)] != second[output_at(c, n)])
            return refused(13, c->inputs + n);
    return good();
}

/* Puts one choice of draws, two bits for each other site that drew between
   the two marks, onto the tapes.  The site's own tape is in its view and
   stays.  Answers how many choices there are. */
static unsigned lay_draws(uint8_t *tapes, unsigned site, struct mark from,
                          struct mark to, unsigned choice)
{
    unsigned choices = 1;

    for (unsigned t = 1; t <= 3; t++) {
        if (t == site)
            continue;
        for (size_t n = from.drawn[t]; n < to.drawn[t]; n++) {
            tapes[n] = choice & 1;
            choice >>= 1;
            choices *= 2;
        }
    }
    return choices;
}

static int received_the_same(const struct run *r, const struct run *s,
                             size_t from, unsigned site)
{
    for (size_t n = from; n < r->at.sent; n++)
        if (r->to[n] == site && r->transcript[n] != s->transcript[n])
            return 0;
    return 1;
}

/* Finds the draws of one step of the second run, with which the site receives
   what it received in that step of the first.  All choices are tried, and one
   alone must fit. */
static void match_step(struct run *first, struct run *second, uint8_t *tapes,
                       unsigned site, uint32_t wire)
{
    struct mark before = first->at;
    unsigned fitting = 0, fit = 0, choices = 1;

    wire_step(first, wire);
    for (unsigned choice = 0; choice < choices; choice++) {
        choices = lay_draws(tapes, site, before, first->at, choice);
        second->at = before;
        wire_step(second, wire);
        if (received_the_same(first, second, before.sent, site)) {
            fitting++;
            fit = choice;
        }
    }
    if (fitting != 1) {
        fprintf(stderr, "wire %u: %u choices fit\n", (unsigned)wire, fitting);
        exit(2);
    }
    lay_draws(tapes, site, before, first->at, fit);
    second->at = before;
    wire_step(second, wire);
}

/* "finds the tapes that explain one site's view by other inputs".  The own
   inputs and the opened bits are known to be equal; the own tape stays; what
   is left of the view is the bits received, and they are met step by step. */
static void find_tapes(const struct circuit *c, unsigned site,
                       struct run *first, struct run *second, uint8_t *tapes)
{
    for (uint32_t wire = 0; wire < wires(c); wire++)
        match_step(first, second, tapes, site, wire);
}

static void write_tapes(const struct circuit *c, struct slice inputs,
                        struct slice tapes, struct slice second,
                        unsigned site, struct slice new_tapes,
                        struct slice room)
{
    struct run r, s;
    uint8_t *found = own_memory(tapes.length);

    copy(found, tapes.at, tapes.length);
    equip(&r, c, inputs.at, tapes.at, NULL);
    equip(&s, c, second.at, found, NULL);
    find_tapes(c, site, &r, &s, found);
    copy(new_tapes.at, found, tapes.length);
    copy(room.at + 2 * wires(c), pair_at(&r, site, 0), 2 * wires(c));
    clear(&r);
    clear(&s);
    free(found);
}

/* The work room has "plain values of all wires under the first inputs, then
   under the second, then the site's pairs (2W)". */
struct answer retape_call(struct slice file, struct slice inputs,
                          struct slice tapes, struct slice second,
                          uint32_t site, struct slice new_tapes,
                          struct slice room)
{
    struct circuit c;
    struct answer answer = check_given(file, inputs, tapes, &c);

    /* 11 "comes just before 10", and 12 after it. */
    if (answer.outcome == GOOD)
        answer = check_site(site);
    if (answer.outcome == GOOD)
        answer = check_buffer(0, new_tapes, tapes_length(&c));
    if (answer.outcome == GOOD)
        answer = check_buffer(1, room, 4 * wires(&c));
    if (answer.outcome == GOOD)
        answer = check_bits(12, second, c.inputs);
    if (answer.outcome != GOOD)
        return answer;

    /* "13 leaves the first 2W bytes of the work room filled with both sets of
       plain values, and its last 2W unchanged" */
    plain_values(&c, inputs.at, room.at);
    plain_values(&c, second.at, room.at + wires(&c));
    answer = check_same(&c, site, room.at, room.at + wires(&c));
    if (answer.outcome == GOOD)
        write_tapes(&c, inputs, tapes, second, site, new_tapes, room);
    return answer;
}

static void add_traffic(uint32_t table[3][3], unsigned from, unsigned to,
                        uint32_t bits)
{
    table[from - 1][to - 1] += bits;
}

/* "An input adds 2 from its owner to each other site. An AND or OR adds 2 for
   each ordered pair. An output adds 1 from k+1 to k for each k". */
static void count_traffic(const struct circuit *c, uint32_t table[3][3])
{
    for (uint32_t n = 0; n < c->inputs; n++) {
        unsigned s = owner_at(c, n);
        add_traffic(table, s, after(s), 2);
        add_traffic(table, s, after(after(s)), 2);
    }
    for (uint32_t g = 0; g < c->gates; g++) {
        unsigned kind = gate_at(c, g).kind;
        for (unsigned s = 1; s <= 3 && (kind == AND || kind == OR); s++) {
            add_traffic(table, s, after(s), 2);
            add_traffic(table, s, after(after(s)), 2);
        }
    }
    for (uint32_t n = 0; n < c->outputs; n++)
        for (unsigned k = 1; k <= 3; k++)
            add_traffic(table, after(k), k, 1);
}

/* "With a refusal the table is all zeros." */
struct answer traffic_call(struct slice file, uint32_t table[3][3])
{
    struct circuit c;
    struct answer answer = check_circuit(file, &c);

    memset(table, 0, 9 * sizeof table[0][0]);
    if (answer.outcome == GOOD)
        count_traffic(&c, table);
    return answer;
}

/* "place 0 for under 16 or over 41,520 bytes or a wrong length; 4 if the
   circuit offset isn't 16; 8 if the inputs offset is under 16 or beyond the
   end; 12 if the tapes offset is below the inputs offset or beyond the end" */
static struct answer check_job(struct slice job)
{
    uint32_t inputs, tapes;

    if (job.length < 16 || job.length > 41520
        || number_at(job.at) != job.length)
        return refused(14, 0);
    if (number_at(job.at + 4) != 16)
        return refused(14, 4);
    inputs = number_at(job.at + 8);
    if (inputs < 16 || inputs > job.length)
        return refused(14, 8);
    tapes = number_at(job.at + 12);
    if (tapes < inputs || tapes > job.length)
        return refused(14, 12);
    return good();
}

static struct slice part_of(struct slice whole, size_t from, size_t to)
{
    struct slice part = {whole.at + from, to - from};
    return part;
}

/* "Line one has the three counts, line two the traffic total; then one line
   per output, its number and bit; then `end`." */
static void write_listing(const struct circuit *c, const struct run *r,
                          char *text)
{
    uint32_t table[3][3] = {{0}}, total = 0;
    char *at = text;

    count_traffic(c, table);
    for (unsigned n = 0; n < 9; n++)
        total += table[n / 3][n % 3];
    at += sprintf(at, "inputs %u gates %u outputs %u\nbits %u\n",
                  (unsigned)c->inputs, (unsigned)c->gates,
                  (unsigned)c->outputs, (unsigned)total);
    for (uint32_t n = 0; n < c->outputs; n++)
        at += sprintf(at, "out %u %u\n", (unsigned)n,
                      (unsigned)r->opened[3 * n]);
    sprintf(at, "end\n");
}

/* "A refusal prints only `refused N P`, number and place." */
struct answer listing_call(struct slice job, char text[LISTING_ROOM])
{
    struct circuit c;
    struct run r;
    struct slice inputs = {0}, tapes = {0};
    struct answer answer = check_job(job);

    if (answer.outcome == GOOD) {
        uint32_t second = number_at(job.at + 8), third = number_at(job.at + 12);
        inputs = part_of(job, second, third);
        tapes = part_of(job, third, job.length);
        answer = check_given(part_of(job, 16, second), inputs, tapes, &c);
    }
    if (answer.outcome != GOOD) {
        sprintf(text, "refused %u %u\n", (unsigned)answer.number[0],
                (unsigned)answer.number[1]);
        return answer;
    }
    equip(&r, &c, inputs.at, tapes.at, NULL);
    run_through(&r);
    write_listing(&c, &r, text);
    clear(&r);
    return answer;
}
