/* The panel's three cases, on the example circuit of docs/PROTOCOL.md: a good run (K1), an abort (K4), a refusal. Then a circuit that came as
 * Bristol Fashion text: made a file, checked and run; and one that does not do. */
#include <stdio.h>
#include <stdlib.h>
#include <string.h>

#include "bakebutton.h"

/* Owners 1 and 2, one gate AND of wires 0 and 1, output wire 2: docs/FORMAT.md says what stands where. */
static const uint8_t circuit[42] = {
    42, 0, 0, 0, 2,  0, 0, 0, 1,  0, 0, 0, 1, 0, 0, 0, /* 42 bytes, 2 inputs, 1 gate, 1 output */
    32, 0, 0, 0, 34, 0, 0, 0, 40, 0, 0, 0, 0, 0, 0, 0, /* where owners, gates and outputs begin */
    1,  2,                                              /* owners */
    2,  0, 0, 0, 1,  0,                                 /* AND, wires 0 and 1 */
    2,  0,                                              /* output: wire 2 */
};

static const uint8_t inputs[2] = {1, 1};

/* Random bits: site 1 has two for its input and two for the AND, site 2 likewise, site 3 two for the AND. A panel draws them. */
static const uint8_t tapes[10] = {1, 0, 1, 1, 0, 1, 0, 1, 1, 0};

/* Four gate lines on seven wires: a value of two bits, wires 0 and 1, one of a bit, wire 2, which chooses, and one output, wire 6. */
#define CHOICE "4 7\n2 2 1\n1 1\n2 1 0 1 3 XOR\n2 1 3 2 4 AND\n2 1 4 1 5 XOR\n"
#define RENAMED "1 1 5 6 EQW\n"

static const uint8_t owners[2] = {1, 2}; /* of each value: site 1 has the two bits, site 2 chooses */
static const uint8_t choice_inputs[3] = {1, 0, 1};
static const uint8_t choice_tapes[12] = {1, 0, 1, 1, 0, 1, 0, 1, 1, 0, 0, 1};

static void print_bits(const char *name, const uint8_t *bits, size_t length)
{
    printf("  %-11s", name);
    for (size_t k = 0; k < length; k++)
        putchar(bits[k] <= 1 ? '0' + bits[k] : '?');
    putchar('\n');
}

/* An answer for a person: number, place, and what they mean. */
static void print_answer(struct bakebutton_answer answer)
{
    char words[BAKEBUTTON_WORDS_BYTES];

    bakebutton_words(words, sizeof words, answer.number, answer.place, 0);
    if (answer.number == BAKEBUTTON_GOOD) {
        printf("  answer     %s\n", words);
    } else if (answer.number == BAKEBUTTON_ABORT) {
        printf("  answer     abort at output %zu, objecting", answer.place);
        for (unsigned site = 1; site <= 3; site++)
            if (answer.sites & BAKEBUTTON_SITE_WEIGHT(site))
                printf(" site %u", site);
        printf(": %s\n", words);
    } else {
        printf("  answer     refused %zu %zu: %s\n", answer.number, answer.place, words);
    }
}

/* A circuit, with what goes into it. */
struct job {
    const uint8_t *file;
    size_t file_length;
    const uint8_t *inputs, *tapes;
    size_t tapes_length;
};

/* A run with one bit of the line turned, or none. */
static void show_run(const struct job *job, long turned)
{
    struct bakebutton_sizes_answer sizes = bakebutton_sizes(job->file, job->file_length);

    if (sizes.number != BAKEBUTTON_GOOD) {
        struct bakebutton_answer refused = {sizes.number, sizes.place, 0};

        print_answer(refused);
        return;
    }
    uint8_t *line = calloc(sizes.line, 1);
    uint8_t *outputs = malloc(sizes.outputs);
    uint8_t *transcript = malloc(sizes.transcript);
    uint8_t *store = malloc(sizes.store);

    if (!line || !outputs || !transcript || !store)
        exit(2);
    memset(outputs, 9, sizes.outputs); /* no bits, so that it shows where nothing was written */
    memset(transcript, 9, sizes.transcript);
    if (turned >= 0)
        line[turned] = 1;

    struct bakebutton_answer answer =
        bakebutton_run(job->file, job->file_length, job->inputs, sizes.inputs, job->tapes, job->tapes_length, line, sizes.line,
                       outputs, sizes.outputs, transcript, sizes.transcript, store, sizes.store);

    print_answer(answer);
    print_bits("outputs", outputs, sizes.outputs);
    print_bits("transcript", transcript, sizes.transcript);
    free(line);
    free(outputs);
    free(transcript);
    free(store);
}

/* A circuit from its text: what it is as a file, and a run of it. */
static void show_text(const char *text)
{
    static uint8_t room[BAKEBUTTON_FILE_ROOM_BYTES];
    struct bakebutton_file_answer made =
        bakebutton_from_bristol((const uint8_t *)text, strlen(text), owners, sizeof owners, room, sizeof room);

    if (made.number != BAKEBUTTON_GOOD) {
        char words[BAKEBUTTON_WORDS_BYTES];

        bakebutton_words(words, sizeof words, made.number, made.place, 2); /* 2: of a text */
        printf("  file       refused %zu %zu: %s\n", made.number, made.place, words);
        return;
    }
    struct bakebutton_counts_answer counts = bakebutton_check(room, made.length); /* a file that is made from a text is always good */
    struct job job = {room, made.length, choice_inputs, choice_tapes, sizeof choice_tapes};

    printf("  file       %zu bytes, inputs %zu, gates %zu, outputs %zu\n", made.length, counts.inputs, counts.gates, counts.outputs);
    show_run(&job, -1);
}

int main(void)
{
    struct job k1 = {circuit, sizeof circuit, inputs, tapes, sizeof tapes};

    puts("K1: the AND of site 1's bit and site 2's bit, both 1, on a clean line");
    show_run(&k1, -1);
    puts("K4: the same with bit 20 of the line turned");
    show_run(&k1, 20);
    puts("K1 with its last random bit left out");
    k1.tapes_length--;
    show_run(&k1, -1);
    puts("A circuit from Bristol Fashion text: site 2's bit chooses one of site 1's two bits, the first");
    show_text(CHOICE RENAMED);
    puts("The same with its last line left out");
    show_text(CHOICE);
    return 0;
}
