/* Asks the library for a Python that cannot load it: on Arm this program runs under an emulator (helper.py builds and starts it).
 *
 * It reads calls from standard input and writes what they answer to standard output, until the input ends. Numbers are eight bytes, lowest
 * first. A call is its code (calls.py has the table), its number, how many slices are given, for each its length and its bytes, how many
 * buffers are lent, and for each its length. The answer is how many words it has, the words, and the bytes of each lent buffer. */
#include <stdint.h>
#include <stdio.h>
#include <stdlib.h>
#include <string.h>

#include "bakebutton.h"

#define SLICES 4
#define WORDS 16

struct slice {
    uint8_t *at;
    size_t length;
};

static struct slice given[SLICES], lent[SLICES];
static size_t words[WORDS], count;

static void stop(const char *why)
{
    fprintf(stderr, "bakebutton-ask: %s\n", why);
    exit(1);
}

static void get(void *to, size_t length)
{
    if (length && fread(to, 1, length, stdin) != length)
        stop("the input ends inside a call");
}

static size_t get_number(void)
{
    uint64_t number;
    get(&number, sizeof number);
    return (size_t)number;
}

static void put_number(size_t number)
{
    uint64_t wide = number;
    fwrite(&wide, sizeof wide, 1, stdout);
}

/* A slice of its own memory, which is null where it is empty. */
static struct slice room(size_t length)
{
    struct slice slice = {length ? calloc(length, 1) : NULL, length};
    if (length && !slice.at)
        stop("no memory");
    return slice;
}

static size_t slices(struct slice *all, int filled)
{
    size_t many = get_number();
    if (many > SLICES)
        stop("more slices than any call has");
    for (size_t n = 0; n < many; n++) {
        all[n] = room(get_number());
        if (filled)
            get(all[n].at, all[n].length);
    }
    return many;
}

static void add(size_t word)
{
    words[count++] = word;
}

#define SLICE(slice) (slice).at, (slice).length
#define COUNTS(call)                                                       \
    {                                                                      \
        struct bakebutton_counts_answer a = bakebutton_##call(SLICE(f));   \
        add(a.number), add(a.place), add(a.inputs), add(a.gates), add(a.outputs); \
        break;                                                             \
    }

static void add_answer(struct bakebutton_answer a)
{
    add(a.number), add(a.place), add(a.sites);
}

static void question(size_t code, struct slice f, size_t number)
{
    if (code == 2) {
        struct bakebutton_gate_answer a = bakebutton_gate(SLICE(f), number);
        add(a.number), add(a.place), add(a.kind), add(a.first), add(a.second);
    } else if (code == 3) {
        struct bakebutton_owner_answer a = bakebutton_owner(SLICE(f), number);
        add(a.number), add(a.place), add(a.owner);
    } else {
        struct bakebutton_output_answer a = bakebutton_output(SLICE(f), number);
        add(a.number), add(a.place), add(a.wire);
    }
}

static void lengths(struct slice f)
{
    struct bakebutton_sizes_answer a = bakebutton_sizes(SLICE(f));
    add(a.number), add(a.place), add(a.inputs), add(a.tapes), add(a.line), add(a.values), add(a.outputs), add(a.transcript);
    add(a.store), add(a.view[0]), add(a.view[1]), add(a.view[2]), add(a.room);
}

static void table(struct slice f)
{
    struct bakebutton_traffic_answer a = bakebutton_traffic(SLICE(f));
    add(a.number), add(a.place);
    for (int n = 0; n < 9; n++)
        add(a.bits[n / 3][n % 3]);
}

static void make(size_t code, size_t number)
{
    struct slice f = given[0];
    struct bakebutton_listing_answer text;
    struct bakebutton_file_answer file;

    switch (code) {
    case 1: COUNTS(open)
    case 2: case 3: case 4: question(code, f, number); break;
    case 5: COUNTS(check)
    case 6: lengths(f); break;
    case 7: table(f); break;
    case 8: add_answer(bakebutton_plain(SLICE(f), SLICE(given[1]), SLICE(lent[0]))); break;
    case 9:
        add_answer(bakebutton_run(SLICE(f), SLICE(given[1]), SLICE(given[2]), SLICE(given[3]), SLICE(lent[0]), SLICE(lent[1]), SLICE(lent[2])));
        break;
    case 10: add_answer(bakebutton_view(SLICE(f), SLICE(given[1]), SLICE(given[2]), number, SLICE(lent[0]), SLICE(lent[1]))); break;
    case 11:
        add_answer(bakebutton_retape(SLICE(f), SLICE(given[1]), SLICE(given[2]), SLICE(given[3]), number, SLICE(lent[0]), SLICE(lent[1])));
        break;
    case 12:
        text = bakebutton_listing(SLICE(f), SLICE(lent[0]));
        add(text.number), add(text.place), add(text.length);
        break;
    case 13:
        file = bakebutton_from_bristol(SLICE(f), SLICE(given[1]), SLICE(lent[0]));
        add(file.number), add(file.place), add(file.length);
        break;
    default: stop("no such call");
    }
}

int main(void)
{
    uint64_t code;

    while (fread(&code, sizeof code, 1, stdin) == 1) {
        size_t number = get_number(), givens = slices(given, 1), lents = slices(lent, 0);
        count = 0;
        make((size_t)code, number);
        put_number(count);
        for (size_t n = 0; n < count; n++)
            put_number(words[n]);
        for (size_t n = 0; n < lents; n++)
            fwrite(lent[n].at ? lent[n].at : (uint8_t *)"", 1, lent[n].length, stdout);
        fflush(stdout);
        for (size_t n = 0; n < givens; n++)
            free(given[n].at);
        for (size_t n = 0; n < lents; n++)
            free(lent[n].at);
        memset(given, 0, sizeof given);
        memset(lent, 0, sizeof lent);
    }
    return 0;
}
