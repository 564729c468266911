/* Makes calls with their secrets marked for valgrind, through the library that a panel links (include/bakebutton.h).  evaluator/secret.py reads
   what valgrind says of them.

   Standard input is a stream of calls (docs/TRIALS.md) of those that are given secrets.  A byte of inputs, tapes or second inputs whose highest
   bit is set is secret: the bit is taken off, and valgrind is told that the byte is undefined, so that it reports the jumps and the addresses
   that hang on it.  It reports each place once for a process, so every call is made in a process of its own, and the log has the line "call"
   before each.  An answer is printed as its number and place, a line each. */
#include "bakebutton.h"

#include <stdio.h>
#include <stdlib.h>
#include <string.h>
#include <sys/wait.h>
#include <unistd.h>
#include <valgrind/memcheck.h>

enum { PLAIN = 6, RUN = 7, VIEW = 8, RETAPE = 9, LISTING = 11, SLICES = 7, SECRET = 0x80 };

/* How many slices a call has, and how many of them are secret; those begin behind the file. */
static const struct form {
    unsigned slices, secret;
} forms[] = {[PLAIN] = {3, 1}, [RUN] = {7, 2}, [VIEW] = {5, 2}, [RETAPE] = {6, 3}, [LISTING] = {1, 0}};

struct slice {
    uint8_t *at;
    size_t length;
};

static void wrong(const char *what)
{
    fprintf(stderr, "secret: %s\n", what);
    exit(3);
}

static void read_bytes(void *at, size_t length)
{
    if (fread(at, 1, length, stdin) != length)
        wrong("the stream is cut short");
}

static struct slice read_slice(void)
{
    uint32_t length;
    struct slice slice;

    read_bytes(&length, sizeof length);
    slice.length = length;
    slice.at = malloc(slice.length + 1);
    if (!slice.at)
        wrong("no memory");
    read_bytes(slice.at, slice.length);
    return slice;
}

static void mark(struct slice slice, size_t from)
{
    for (size_t n = from; n < slice.length; n++)
        if (slice.at[n] & SECRET) {
            slice.at[n] ^= SECRET;
            (void)VALGRIND_MAKE_MEM_UNDEFINED(slice.at + n, 1);
        }
}

/* A job's inputs and tapes stand behind its circuit; where they begin is its number at 8. */
static void mark_secrets(unsigned which, const struct slice *part)
{
    uint32_t from = 0;

    if (which == LISTING && part[0].length >= 12)
        memcpy(&from, part[0].at + 8, sizeof from);
    if (from)
        mark(part[0], from);
    for (unsigned n = 1; n <= forms[which].secret; n++)
        mark(part[n], 0);
}

#define OF(slice) (slice).at, (slice).length

static struct bakebutton_answer made(unsigned which, size_t site, const struct slice *p)
{
    static uint8_t text[BAKEBUTTON_TEXT_BYTES];
    struct bakebutton_listing_answer listed;
    struct bakebutton_answer answer = {0};

    switch (which) {
    case PLAIN: return bakebutton_plain(OF(p[0]), OF(p[1]), OF(p[2]));
    case RUN: return bakebutton_run(OF(p[0]), OF(p[1]), OF(p[2]), OF(p[3]), OF(p[4]), OF(p[5]), OF(p[6]));
    case VIEW: return bakebutton_view(OF(p[0]), OF(p[1]), OF(p[2]), site, OF(p[3]), OF(p[4]));
    case RETAPE: return bakebutton_retape(OF(p[0]), OF(p[1]), OF(p[2]), OF(p[3]), site, OF(p[4]), OF(p[5]));
    default:
        listed = bakebutton_listing(OF(p[0]), text, sizeof text);
        answer.number = listed.number;
        answer.place = listed.place;
        return answer;
    }
}

/* In the process of one call. What is answered is public. */
static void make_and_print(unsigned which, size_t site, const struct slice *part)
{
    struct bakebutton_answer answer = made(which, site, part);

    (void)VALGRIND_MAKE_MEM_DEFINED(&answer, sizeof answer);
    printf("%zu %zu\n", answer.number, answer.place);
    _exit(fflush(stdout) ? 3 : 0);
}

int main(void)
{
    int which, status;

    if (!RUNNING_ON_VALGRIND)
        wrong("this is not run by valgrind");
    while ((which = getchar()) != EOF) {
        struct slice part[SLICES];
        uint32_t site;
        pid_t child;

        if ((size_t)which >= sizeof forms / sizeof *forms || !forms[which].slices)
            wrong("a call that is given no secrets");
        read_bytes(&site, sizeof site);
        for (unsigned n = 0; n < forms[which].slices; n++)
            part[n] = read_slice();
        mark_secrets((unsigned)which, part);
        VALGRIND_PRINTF("call\n");
        child = fork();
        if (child == 0)
            make_and_print((unsigned)which, site, part);
        if (child < 0 || waitpid(child, &status, 0) != child || status)
            wrong("a call did not end");
        for (unsigned n = 0; n < forms[which].slices; n++)
            free(part[n].at);
    }
    return 0;
}
