/* The calls of evaluator.h, made through the library that a panel links (include/bakebutton.h).  With stream.c it prints what the evaluator
   prints, if the library is right and the boundary is.

   Every slice stands alone in memory of its own that ends where no byte may be touched (or, with DOOR_FRONT, begins there), and what is only
   given cannot be written, so that a byte read or written outside a slice ends the program.  An empty slice is a null pointer (or, with
   DOOR_FRONT, a pointer to what may not be touched).  What C's side of the boundary can get wrong is looked at too: numbers that are no
   answer, members that should be 0, bytes beside a lent buffer. */
#include "evaluator.h"

#include "bakebutton.h"

#include <stdio.h>
#include <stdlib.h>
#include <string.h>
#include <sys/mman.h>

enum { ROOM = 1 << 20, PAGE = 1 << 16, ROOMS = 8, BESIDE = 256, LAST_REFUSAL = 17 };

static void wrong(const char *what)
{
    fprintf(stderr, "door: %s\n", what);
    exit(3);
}

/* ---- Memory: a room is PAGE bytes that may not be touched, ROOM bytes, and PAGE bytes that may not be touched */

static uint8_t *rooms[ROOMS];
static unsigned used;

struct held {
    uint8_t *room, *at;
    size_t length;
};

static uint8_t *room_of(unsigned n)
{
    if (!rooms[n]) {
        uint8_t *at = mmap(0, PAGE + ROOM + PAGE, PROT_NONE, MAP_PRIVATE | MAP_ANONYMOUS, -1, 0);
        if (at == MAP_FAILED || mprotect(at + PAGE, ROOM, PROT_READ | PROT_WRITE))
            wrong("no memory");
        rooms[n] = at + PAGE;
    }
    return rooms[n];
}

/* The bytes beside a slice that may be touched: before it, or with DOOR_FRONT behind it. */
static uint8_t *beside(struct held held)
{
#ifdef DOOR_FRONT
    return held.at + held.length;
#else
    return held.at - BESIDE;
#endif
}

static struct held hold(struct slice slice)
{
    struct held held = {room_of(used++), 0, slice.length};

    if (slice.length > ROOM - BESIDE)
        wrong("a slice is too long for its room");
#ifdef DOOR_FRONT
    held.at = held.room;
#else
    held.at = held.room + ROOM - slice.length;
#endif
    memset(beside(held), 0x5a, BESIDE);
    if (slice.length)
        memcpy(held.at, slice.at, slice.length);
    return held;
}

static uint8_t *pointer(struct held held)
{
    if (held.length)
        return held.at;
#ifdef DOOR_FRONT
    return held.room - 1;
#else
    return 0;
#endif
}

/* What is given cannot be written until the call is over. */
static struct held given(struct slice slice)
{
    struct held held = hold(slice);
    if (mprotect(held.room, ROOM, PROT_READ))
        wrong("no protection");
    return held;
}

static void back(struct held held)
{
    if (mprotect(held.room, ROOM, PROT_READ | PROT_WRITE))
        wrong("no protection");
    used--;
}

static struct held lent(struct slice slice)
{
    return hold(slice);
}

static void returned(struct held held, struct slice slice)
{
    for (size_t n = 0; n < BESIDE; n++)
        if (beside(held)[n] != 0x5a)
            wrong("a byte beside a lent buffer is written");
    if (slice.length)
        memcpy(slice.at, held.at, slice.length);
    used--;
}

/* ---- Answers */

/* number and place as the evaluator has them; what is good has its values, count of them. */
static struct answer told(size_t number, size_t place, size_t sites, struct answer values)
{
    if (number != BAKEBUTTON_ABORT && sites)
        wrong("sites without an abort");
    if (number == BAKEBUTTON_GOOD) {
        if (place)
            wrong("a place without a refusal");
        return values;
    }
    for (unsigned n = 0; n < values.count; n++)
        if (values.number[n])
            wrong("a value with a refusal");
    if (place > UINT32_MAX)
        wrong("a place that is none");
    if (number == BAKEBUTTON_ABORT) {
        if (sites < 1 || sites > 7)
            wrong("sites that are none");
        return aborted((uint32_t)place, (uint32_t)sites);
    }
    if (number > LAST_REFUSAL)
        wrong("a number that is no answer");
    return refused((uint32_t)number, (uint32_t)place);
}

static struct answer told_of(struct bakebutton_answer a)
{
    return told(a.number, a.place, a.sites, good());
}

static struct answer told_counts(struct bakebutton_counts_answer a)
{
    return told(a.number, a.place, 0, good_with(3, a.inputs, a.gates, a.outputs));
}

/* ---- The calls */

struct answer open_call(struct slice file)
{
    struct held f = given(file);
    struct bakebutton_counts_answer a = bakebutton_open(pointer(f), f.length);

    back(f);
    return told_counts(a);
}

struct answer gate_call(struct slice file, uint32_t n)
{
    struct held f = given(file);
    struct bakebutton_gate_answer a = bakebutton_gate(pointer(f), f.length, n);

    back(f);
    return told(a.number, a.place, 0, good_with(3, a.kind, a.first, a.second));
}

struct answer owner_call(struct slice file, uint32_t n)
{
    struct held f = given(file);
    struct bakebutton_owner_answer a = bakebutton_owner(pointer(f), f.length, n);

    back(f);
    return told(a.number, a.place, 0, good_with(1, a.owner, 0, 0));
}

struct answer output_call(struct slice file, uint32_t n)
{
    struct held f = given(file);
    struct bakebutton_output_answer a = bakebutton_output(pointer(f), f.length, n);

    back(f);
    return told(a.number, a.place, 0, good_with(1, a.wire, 0, 0));
}

/* The lengths that the library works out are those of circuit.c, and of the header's macros. */
static void check_sizes(struct slice file, struct held f)
{
    struct bakebutton_sizes_answer a = bakebutton_sizes(pointer(f), f.length);
    struct bakebutton_sizes_answer want = {0};
    struct circuit c;
    struct answer checked = check_circuit(file, &c);

    if (checked.outcome == GOOD) {
        want.inputs = c.inputs;
        want.tapes = tapes_length(&c);
        want.line = want.transcript = line_length(&c);
        want.values = wires(&c);
        want.outputs = 3 * (size_t)c.outputs;
        want.store = 6 * wires(&c);
        want.room = 4 * wires(&c);
        for (unsigned s = 1; s <= 3; s++) {
            want.view[s - 1] = view_length(&c, s);
            if (want.view[s - 1] != BAKEBUTTON_VIEW_BYTES(c.inputs, c.own[s], c.products, c.outputs))
                wrong("a view's macro");
        }
        if (want.inputs != BAKEBUTTON_INPUTS_BYTES(c.inputs) || want.tapes != BAKEBUTTON_TAPES_BYTES(c.inputs, c.products)
            || want.line != BAKEBUTTON_LINE_BYTES(c.inputs, c.products, c.outputs)
            || want.values != BAKEBUTTON_VALUES_BYTES(c.inputs, c.gates) || want.outputs != BAKEBUTTON_OPENED_BYTES(c.outputs)
            || want.transcript != BAKEBUTTON_TRANSCRIPT_BYTES(c.inputs, c.products, c.outputs)
            || want.store != BAKEBUTTON_STORE_BYTES(c.inputs, c.gates) || want.room != BAKEBUTTON_ROOM_BYTES(c.inputs, c.gates)
            || f.length != BAKEBUTTON_FILE_BYTES(c.inputs, c.gates, c.outputs))
            wrong("a length's macro");
    } else {
        want.number = checked.number[0];
        want.place = checked.number[1];
    }
    if (memcmp(&a, &want, sizeof a))
        wrong("bakebutton_sizes");
}

struct answer check_call(struct slice file)
{
    struct held f = given(file);
    struct bakebutton_counts_answer a = bakebutton_check(pointer(f), f.length);

    check_sizes(file, f);
    back(f);
    return told_counts(a);
}

struct answer plain_call(struct slice file, struct slice inputs, struct slice values)
{
    struct held f = given(file), x = given(inputs), v = lent(values);
    struct bakebutton_answer a = bakebutton_plain(pointer(f), f.length, pointer(x), x.length, pointer(v), v.length);

    returned(v, values);
    back(x);
    back(f);
    return told_of(a);
}

struct answer run_call(struct slice file, struct slice inputs, struct slice tapes, struct slice line, struct slice outputs,
                       struct slice transcript, struct slice store)
{
    struct held f = given(file), x = given(inputs), t = given(tapes), l = given(line);
    struct held o = lent(outputs), r = lent(transcript), s = lent(store);
    struct bakebutton_answer a = bakebutton_run(pointer(f), f.length, pointer(x), x.length, pointer(t), t.length, pointer(l), l.length,
                                                pointer(o), o.length, pointer(r), r.length, pointer(s), s.length);

    returned(s, store);
    returned(r, transcript);
    returned(o, outputs);
    back(l);
    back(t);
    back(x);
    back(f);
    return told_of(a);
}

struct answer view_call(struct slice file, struct slice inputs, struct slice tapes, uint32_t site, struct slice view, struct slice store)
{
    struct held f = given(file), x = given(inputs), t = given(tapes), v = lent(view), s = lent(store);
    struct bakebutton_answer a = bakebutton_view(pointer(f), f.length, pointer(x), x.length, pointer(t), t.length, site,
                                                 pointer(v), v.length, pointer(s), s.length);

    returned(s, store);
    returned(v, view);
    back(t);
    back(x);
    back(f);
    return told_of(a);
}

struct answer retape_call(struct slice file, struct slice inputs, struct slice tapes, struct slice second, uint32_t site,
                          struct slice new_tapes, struct slice room)
{
    struct held f = given(file), x = given(inputs), t = given(tapes), y = given(second), n = lent(new_tapes), r = lent(room);
    struct bakebutton_answer a = bakebutton_retape(pointer(f), f.length, pointer(x), x.length, pointer(t), t.length, pointer(y), y.length,
                                                   site, pointer(n), n.length, pointer(r), r.length);

    returned(r, room);
    returned(n, new_tapes);
    back(y);
    back(t);
    back(x);
    back(f);
    return told_of(a);
}

struct answer traffic_call(struct slice file, uint32_t table[3][3])
{
    struct held f = given(file);
    struct bakebutton_traffic_answer a = bakebutton_traffic(pointer(f), f.length);

    back(f);
    memcpy(table, a.bits, sizeof a.bits);
    return told(a.number, a.place, 0, good());
}

/* A buffer of another length: nothing is written, and it is 10, buffer 0, where the job has no refusal of its own. */
static void check_unfit(struct held job, size_t length, struct bakebutton_listing_answer fit)
{
    static uint8_t filled[2 * BAKEBUTTON_TEXT_BYTES];
    struct slice slice = {filled, length};
    struct held text;
    struct bakebutton_listing_answer a;

    memset(filled, 0xa5, sizeof filled);
    text = lent(slice);
    a = bakebutton_listing(pointer(job), job.length, pointer(text), text.length);
    returned(text, slice);
    for (size_t n = 0; n < sizeof filled; n++)
        if (filled[n] != 0xa5)
            wrong("a listing in a buffer of another length");
    if (a.length || a.number != (fit.number ? fit.number : BAKEBUTTON_REFUSED_BUFFER) || a.place != fit.place)
        wrong("a listing's answer for a buffer of another length");
}

/* A reader is a struct that C does not have. */
struct answer gate_read_call(struct slice file, struct slice counts, uint32_t n)
{
    (void)file, (void)counts, (void)n;
    wrong("a call that the library has not");
    return good();
}

struct answer owner_read_call(struct slice file, struct slice counts, uint32_t n)
{
    return gate_read_call(file, counts, n);
}

struct answer output_read_call(struct slice file, struct slice counts, uint32_t n)
{
    return gate_read_call(file, counts, n);
}

/* A file that is said to be longer than its room is stream.c's to tell. */
struct answer from_bristol_call(struct slice text, struct slice owners, struct slice room)
{
    struct held t = given(text), o = given(owners), r = lent(room);
    struct bakebutton_file_answer a = bakebutton_from_bristol(pointer(t), t.length, pointer(o), o.length, pointer(r), r.length);

    returned(r, room);
    back(o);
    back(t);
    return told(a.number, a.place, 0, good_with(1, a.length, 0, 0));
}

struct answer listing_call(struct slice job, char text[LISTING_ROOM])
{
    static uint8_t filled[BAKEBUTTON_TEXT_BYTES];
    struct slice slice = {filled, sizeof filled};
    struct held j = given(job), t;
    struct bakebutton_listing_answer a;

    memset(filled, 0xa5, sizeof filled);
    t = lent(slice);
    a = bakebutton_listing(pointer(j), j.length, pointer(t), t.length);
    returned(t, slice);
    check_unfit(j, 0, a);
    check_unfit(j, BAKEBUTTON_TEXT_BYTES - 1, a);
    check_unfit(j, BAKEBUTTON_TEXT_BYTES + 1, a);
    back(j);
    if (bakebutton_text_bytes() != sizeof filled || a.length > sizeof filled)
        wrong("a text's length");
    for (size_t n = a.length; n < sizeof filled; n++)
        if (filled[n] != 0xa5)
            wrong("a byte behind a text is written");
    memcpy(text, filled, a.length);
    text[a.length] = 0;
    if (a.number) { /* the call leaves the buffer as it was: the line is the program's */
        if (a.length)
            wrong("a refused job has a text");
        snprintf(text, LISTING_ROOM, "refused %zu %zu\n", a.number, a.place);
    }
    return told(a.number, a.place, 0, good());
}
