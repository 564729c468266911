/* Bakebutton for a panel: the engine's calls from C.
 *
 * A Boolean circuit runs at three sites on 2-of-3 replicated shares. These functions read and check a circuit file, run it on a
 * line, show what one site sees, find the tapes that explain one site's view by other inputs, count the bits sent, and write a
 * circuit file from Bristol Fashion text. Sockets, keys and clocks stay with you: what goes in and comes out are buffers of yours.
 * docs/FORMAT.md has the file, the text, the slices, the buffers and the refusals byte by byte; the numbers here are held to the
 * proved sources by the project's own check.
 *
 * Build: `tools/library` writes libbakebutton.a and .so in target/lib; `cc -Iinclude yours.c target/lib/libbakebutton.a`. `tools/install
 * PREFIX` puts both and this header under a prefix. x86-64 Linux.
 *
 * THE ANSWER of every call is a struct, by value. Its first two members are always number and place:
 *
 *     number 0, BAKEBUTTON_GOOD      done. place is 0.
 *     number 100, BAKEBUTTON_ABORT   of a run only: some site got two unlike copies at an opening, and the run stopped there. place is
 *                                    that output's number, sites the objecting sites, a sum of 1, 2 and 4 for sites 1, 2 and 3. No
 *                                    outputs are handed over. This is no refusal: the call was good, the line was not.
 *     number 1 to 17                 a refusal: something that you gave does not hold; the table below says what, place says where.
 *                                    Every buffer is as it was before the call (but see 13).
 *
 * There are no other numbers. A member that has nothing to say is 0. bakebutton_words, at the end, puts a number and a place in words.
 *
 * REFUSALS. Bits are bytes, 0 or 1. I, G, O are a circuit's inputs, gates and outputs, W = I + G its wires.
 *
 *     no.  when                                                                     place
 *      1   file under 32 bytes                                                      0
 *      2   I, G or O too large (1,024; 3,072; 256)                                  0, 1 or 2
 *      3   a header field is wrong, or the file is not as long as its field says    the field's offset: 0, 16, 20, 24 or 28
 *      4   an owner is not 1, 2 or 3                                                input number
 *          from a text: another number of owners than of values, else a bad owner   count of input values, else value number
 *      5   unknown kind, an operand that is no lower wire, NOT with second not 0    gate number
 *      6   an output wire is not below W                                            output number
 *      7   inputs: wrong length, else a byte above 1                                wanted length, else index
 *      8   tapes, likewise                                                          likewise
 *      9   line, likewise                                                           likewise
 *     10   a lent buffer has not exactly its length                                 buffer number
 *     11   site is not 1, 2 or 3                                                    0
 *     12   second inputs, as 7                                                      as 7
 *     13   re-taping: an own input differs, else an opened bit does: no such tapes  input's wire, else I + output number
 *     14   bad job header                                                           0, 4, 8 or 12
 *     15   text: a line is not of its form, else a line is missing                  line number, else number of lines
 *     16   text: a gate word that is not XOR, AND, INV or EQW                       line number
 *     17   text: wire read before written or written twice, else output unwritten   line number, else number of lines
 *
 * ORDER OF CHECKS, the same for every call on a circuit file or a job: 14, 1, 2, 3, 4, 5, 6, 7, 8, 9, 11, 10, 12, 13, and in each the
 * first fault by index. A call makes only those that concern it, which the comment on each call lists. A text has an order of its
 * own: 10, then by line 15, 16, 17, then with the number of lines 15, 17, then 4, 2. By line: the first line that has a fault, and of
 * its faults the first in that order. Lines count from 1, blank ones too. The first check that fails is the answer.
 *
 * WHAT YOU MUST ENSURE. The engine checks every byte and every length that it is given; these four things it cannot see:
 *
 *     1. A pointer and its length are memory that may be read, and where it is lent (not const) written, for the whole call. A
 *        pointer may be null where its length is 0, and only there.
 *     2. A lent buffer overlaps no other buffer of the call, lent or given. What is only given may overlap.
 *     3. Nobody else writes to any of it during the call.
 *     4. There is stack: some 120 KB for bakebutton_listing, 40 KB for bakebutton_from_bristol, 2 KB for every other call.
 *
 * Nothing is kept between calls, nothing is allocated, nothing is written but the lent buffers: calls may be made from several threads
 * at a time. Besides memcpy and memset nothing of the C library is used.
 */
#ifndef BAKEBUTTON_H
#define BAKEBUTTON_H

#include <stddef.h>
#include <stdint.h>

#ifdef __cplusplus
extern "C" {
#endif

/* An answer that nobody looks at is a fault: the compiler says so. */
#if defined(__GNUC__)
#define BAKEBUTTON_LOOK __attribute__((warn_unused_result))
#else
#define BAKEBUTTON_LOOK
#endif

/* ---- Version of this header and of the library that it came with */

#define BAKEBUTTON_VERSION "1.1.0"
#define BAKEBUTTON_VERSION_MAJOR 1
#define BAKEBUTTON_VERSION_MINOR 1
#define BAKEBUTTON_VERSION_PATCH 0

/* ---- Numbers in answers */

#define BAKEBUTTON_GOOD 0
#define BAKEBUTTON_ABORT 100

#define BAKEBUTTON_REFUSED_FILE_SHORT 1
#define BAKEBUTTON_REFUSED_TOO_LARGE 2
#define BAKEBUTTON_REFUSED_FIELD 3
#define BAKEBUTTON_REFUSED_OWNER 4
#define BAKEBUTTON_REFUSED_GATE 5
#define BAKEBUTTON_REFUSED_OUTPUT 6
#define BAKEBUTTON_REFUSED_INPUTS 7
#define BAKEBUTTON_REFUSED_TAPES 8
#define BAKEBUTTON_REFUSED_LINE 9
#define BAKEBUTTON_REFUSED_BUFFER 10
#define BAKEBUTTON_REFUSED_SITE 11
#define BAKEBUTTON_REFUSED_SECOND 12
#define BAKEBUTTON_REFUSED_DIFFERS 13
#define BAKEBUTTON_REFUSED_JOB 14
#define BAKEBUTTON_REFUSED_TEXT 15
#define BAKEBUTTON_REFUSED_WORD 16
#define BAKEBUTTON_REFUSED_WIRE 17

/* A site's weight in an abort's sum of sites. */
#define BAKEBUTTON_SITE_WEIGHT(site) (1u << ((site) - 1))

/* ---- Limits */

#define BAKEBUTTON_INPUTS_MAX 1024
#define BAKEBUTTON_GATES_MAX 3072
#define BAKEBUTTON_OUTPUTS_MAX 256

/* ---- Kinds of gates */

#define BAKEBUTTON_XOR 1
#define BAKEBUTTON_AND 2
#define BAKEBUTTON_NOT 3 /* its second is 0 and reads nothing */
#define BAKEBUTTON_OR 4

/* ---- Lengths, in bytes
 *
 * inputs, gates, outputs are the circuit's counts, ands the number of its AND and OR gates, own the number of a site's own inputs.
 * bakebutton_sizes, below, works all of them out from a file. The _MAX are what the largest circuit needs: for buffers of fixed size,
 * of which the front of exactly the right length is then lent.
 */

#define BAKEBUTTON_FILE_BYTES(inputs, gates, outputs) ((size_t)32 + (size_t)(inputs) + 6 * (size_t)(gates) + 2 * (size_t)(outputs))
#define BAKEBUTTON_INPUTS_BYTES(inputs) ((size_t)(inputs))
#define BAKEBUTTON_TAPES_BYTES(inputs, ands) (2 * (size_t)(inputs) + 6 * (size_t)(ands))
#define BAKEBUTTON_LINE_BYTES(inputs, ands, outputs) (4 * (size_t)(inputs) + 12 * (size_t)(ands) + 6 * (size_t)(outputs))
#define BAKEBUTTON_VALUES_BYTES(inputs, gates) ((size_t)(inputs) + (size_t)(gates))
#define BAKEBUTTON_OPENED_BYTES(outputs) (3 * (size_t)(outputs))
#define BAKEBUTTON_TRANSCRIPT_BYTES(inputs, ands, outputs) BAKEBUTTON_LINE_BYTES(inputs, ands, outputs)
#define BAKEBUTTON_STORE_BYTES(inputs, gates) (6 * ((size_t)(inputs) + (size_t)(gates)))
#define BAKEBUTTON_VIEW_BYTES(inputs, own, ands, outputs) (2 * (size_t)(inputs) + (size_t)(own) + 6 * (size_t)(ands) + 3 * (size_t)(outputs))
#define BAKEBUTTON_ROOM_BYTES(inputs, gates) (4 * ((size_t)(inputs) + (size_t)(gates)))

#define BAKEBUTTON_FILE_BYTES_MAX 20000
#define BAKEBUTTON_INPUTS_BYTES_MAX 1024
#define BAKEBUTTON_TAPES_BYTES_MAX 20480
#define BAKEBUTTON_LINE_BYTES_MAX 42496
#define BAKEBUTTON_VALUES_BYTES_MAX 4096
#define BAKEBUTTON_OPENED_BYTES_MAX 768
#define BAKEBUTTON_TRANSCRIPT_BYTES_MAX 42496
#define BAKEBUTTON_STORE_BYTES_MAX 24576
#define BAKEBUTTON_VIEW_BYTES_MAX 22272
#define BAKEBUTTON_ROOM_BYTES_MAX 16384

/* A listing is always lent this many, a file that is made from a text this many; a job has at most this many. */
#define BAKEBUTTON_TEXT_BYTES 2624
#define BAKEBUTTON_FILE_ROOM_BYTES 20000
#define BAKEBUTTON_JOB_BYTES_MAX 41520

/* ---- Answers */

/* Of plain values, run, view and re-taping. sites is 0 unless number is BAKEBUTTON_ABORT. */
struct bakebutton_answer {
    size_t number;
    size_t place;
    size_t sites;
};

/* Of open and check: the circuit's counts. */
struct bakebutton_counts_answer {
    size_t number;
    size_t place;
    size_t inputs;
    size_t gates;
    size_t outputs;
};

/* A gate as it is stored. */
struct bakebutton_gate_answer {
    size_t number;
    size_t place;
    uint16_t kind;
    uint16_t first;
    uint16_t second;
};

/* The owner of an input as it is stored. */
struct bakebutton_owner_answer {
    size_t number;
    size_t place;
    uint8_t owner;
};

/* The wire of an output as it is stored. */
struct bakebutton_output_answer {
    size_t number;
    size_t place;
    uint16_t wire;
};

/* bits[s - 1][r - 1] is how many bits site s sends to site r. */
struct bakebutton_traffic_answer {
    size_t number;
    size_t place;
    uint32_t bits[3][3];
};

/* length bytes of the lent buffer are text. */
struct bakebutton_listing_answer {
    size_t number;
    size_t place;
    size_t length;
};

/* length bytes of the lent buffer are a circuit file. */
struct bakebutton_file_answer {
    size_t number;
    size_t place;
    size_t length;
};

/* Each member is the length of the slice or buffer that has its name in the calls below; the new tapes are as long as the tapes, the
 * second inputs as the inputs, and view[s - 1] is that of site s. */
struct bakebutton_sizes_answer {
    size_t number;
    size_t place;
    size_t inputs;
    size_t tapes;
    size_t line;
    size_t values;
    size_t outputs;
    size_t transcript;
    size_t store;
    size_t view[3];
    size_t room;
};

/* ---- Questions about a circuit file */

/* The header: the counts of a file whose header is good. Checks 1, 2, 3. The circuit itself is not looked at. */
struct bakebutton_counts_answer bakebutton_open(const uint8_t *file, size_t file_length) BAKEBUTTON_LOOK;

/* Gate k, numbered from 0, as it is stored, good or bad. Checks 1, 2, 3; then 5 with place G where k is not below G. */
struct bakebutton_gate_answer bakebutton_gate(const uint8_t *file, size_t file_length, size_t k) BAKEBUTTON_LOOK;

/* The owner of input k as it is stored, good or bad. Checks 1, 2, 3; then 4 with place I where k is not below I. */
struct bakebutton_owner_answer bakebutton_owner(const uint8_t *file, size_t file_length, size_t k) BAKEBUTTON_LOOK;

/* The wire of output k as it is stored, good or bad. Checks 1, 2, 3; then 6 with place O where k is not below O. */
struct bakebutton_output_answer bakebutton_output(const uint8_t *file, size_t file_length, size_t k) BAKEBUTTON_LOOK;

/* The whole circuit: good exactly where every other call accepts the file. Checks 1, 2, 3, 4, 5, 6. */
struct bakebutton_counts_answer bakebutton_check(const uint8_t *file, size_t file_length) BAKEBUTTON_LOOK;

/* The lengths of all slices and buffers that go with a circuit. Checks 1, 2, 3, 4, 5, 6; all lengths are 0 at a refusal. */
struct bakebutton_sizes_answer bakebutton_sizes(const uint8_t *file, size_t file_length) BAKEBUTTON_LOOK;

/* How many bits each site sends to each other in a run, the comparing copy of an opening left out. Checks 1, 2, 3, 4, 5, 6; the table
 * is all zeros at a refusal. */
struct bakebutton_traffic_answer bakebutton_traffic(const uint8_t *file, size_t file_length) BAKEBUTTON_LOOK;

/* ---- Calls on inputs and tapes
 *
 * inputs: I bits, by wire. tapes: the random bits of site 1, of site 2, of site 3, one after the other; a site has two for each of its
 * own inputs, by wire, then two for each AND and OR gate, by number. Draw them anew for every run.
 */

/* The plain value of every wire, with no sharing. Lent: 0 values. Checks 1, 2, 3, 4, 5, 6, 7, 10. */
struct bakebutton_answer bakebutton_plain(const uint8_t *file, size_t file_length, const uint8_t *inputs, size_t inputs_length, uint8_t *values, size_t values_length) BAKEBUTTON_LOOK;

/* The run of the three sites. line has a byte for each bit sent, in the order of sending, which is xored onto it: all zeros is a clean
 * line. Lent: 0 outputs (for each output what sites 1, 2 and 3 opened), 1 transcript (the delivered bits), 2 store (site 1's pairs of
 * parts of all wires, two bytes each, then site 2's, then site 3's). Checks 1, 2, 3, 4, 5, 6, 7, 8, 9, 10.
 *
 * Look at the number before at anything else: at BAKEBUTTON_ABORT outputs is as it was before the call, and must not be shown. The
 * transcript then holds everything through the six bits of the opening it stopped at, the rest of it is as it was, and the store is
 * whole. */
struct bakebutton_answer bakebutton_run(const uint8_t *file, size_t file_length, const uint8_t *inputs, size_t inputs_length, const uint8_t *tapes, size_t tapes_length, const uint8_t *line, size_t line_length, uint8_t *outputs, size_t outputs_length, uint8_t *transcript, size_t transcript_length, uint8_t *store, size_t store_length) BAKEBUTTON_LOOK;

/* What one site sees of a run on a clean line: its own inputs, its own tape, the bits delivered to it, the bits opened. Lent: 0 view,
 * 1 store (as after a clean run). Checks 1, 2, 3, 4, 5, 6, 7, 8, 11, 10. */
struct bakebutton_answer bakebutton_view(const uint8_t *file, size_t file_length, const uint8_t *inputs, size_t inputs_length, const uint8_t *tapes, size_t tapes_length, size_t site, uint8_t *view, size_t view_length, uint8_t *store, size_t store_length) BAKEBUTTON_LOOK;

/* The one set of tapes with which the second inputs give the site the view that it has with the first inputs and these tapes. Lent:
 * 0 fresh (the new tapes), 1 room (plain values of all wires under the first inputs, under the second, then the site's pairs). Checks
 * 1, 2, 3, 4, 5, 6, 7, 8, 11, 10, 12, 13.
 *
 * At 13 there are no such tapes. It is the one refusal of any call that writes: the first 2W bytes of room hold both sets of plain values. */
struct bakebutton_answer bakebutton_retape(const uint8_t *file, size_t file_length, const uint8_t *inputs, size_t inputs_length, const uint8_t *tapes, size_t tapes_length, const uint8_t *second, size_t second_length, size_t site, uint8_t *fresh, size_t fresh_length, uint8_t *room, size_t room_length) BAKEBUTTON_LOOK;

/* ---- The listing of a job */

/* BAKEBUTTON_TEXT_BYTES, for whoever cannot read it here. */
size_t bakebutton_text_bytes(void) BAKEBUTTON_LOOK;

/* A job (docs/FORMAT.md) has a circuit, inputs and tapes in one slice; its listing is the text that tools/listing prints.
 * Lent: 0 text, of BAKEBUTTON_TEXT_BYTES; the first length bytes are the text, with no zero behind it, and the rest is as it was. Checks
 * 14, 1, 2, 3, 4, 5, 6, 7, 8, 10. At a refusal length is 0; the program's line for it is `refused N P`, number and place. */
struct bakebutton_listing_answer bakebutton_listing(const uint8_t *job, size_t job_length, uint8_t *text, size_t text_length) BAKEBUTTON_LOOK;

/* ---- A circuit file from a text */

/* A circuit as others exchange it, Bristol Fashion text (docs/FORMAT.md has its grammar), written as a circuit file that bakebutton_check
 * accepts. owners has a byte for each input value of the text, in their order: the site that owns all bits of the value. Lent: 0 room, of
 * BAKEBUTTON_FILE_ROOM_BYTES; the first length bytes are the file, and the rest is as it was. Checks 10, then by line 15, 16, 17, then
 * with the number of lines 15, 17, then 4, 2. 2 is of the file: the sum of the input widths, the gates without EQW, the sum of the output
 * widths. A value of width 0 has an owner too. The text has no largest length. At a refusal length is 0. */
struct bakebutton_file_answer bakebutton_from_bristol(const uint8_t *text, size_t text_length, const uint8_t *owners, size_t owners_length, uint8_t *room, size_t room_length) BAKEBUTTON_LOOK;

#ifdef __cplusplus
}
#endif

/* ---- Words for a person */

/* So many bytes hold the longest words and their zero. */
#define BAKEBUTTON_WORDS_BYTES 256

/* What a number and a place mean. asked is 1 where they are the answer of bakebutton_owner, bakebutton_gate or bakebutton_output, whose
 * place at 4, 5 and 6 is a count; 2 where they are that of bakebutton_from_bristol, whose place at 4 is a value's number or their count;
 * else 0; any other number counts as 1. As snprintf does, it writes at most room bytes, the last of them a zero, and returns how many there are without it; text may be
 * null where room is 0. There are no words, and 0 is returned, for a number that no call answers, or a place that the rows do not have. Not proved, and in no
 * library: it is compiled with your program. */
static inline size_t bakebutton_words(char *text, size_t room, size_t number, size_t place, int asked)
{
    static const struct {
        size_t number;
        long place; /* -1 is any */
        int asked;
        const char *words; /* # stands for the place */
    } rows[] = {
        /* Made by tools/words from include/words.txt: */
        {4, -1, 1, "there is no such input: the circuit has #"},
        {4, -1, 2, "there are not # owners, one for each input value, or that of value # is not 1, 2 or 3"},
        {5, -1, 1, "there is no such gate: the circuit has #"},
        {6, -1, 1, "there is no such output: the circuit has #"},
        {0, 0, 0, "good"},
        {1, 0, 0, "the file has under 32 bytes"},
        {2, 0, 0, "there are more than 1,024 inputs"},
        {2, 1, 0, "there are more than 3,072 gates"},
        {2, 2, 0, "there are more than 256 outputs"},
        {3, 0, 0, "the length in the header is not that of the file, or not what its counts ask for"},
        {3, 16, 0, "the offset of the owners in the header is not 32"},
        {3, 20, 0, "the offset of the gates in the header is not where the owners end"},
        {3, 24, 0, "the offset of the outputs in the header is not where the gates end"},
        {3, 28, 0, "the last field of the header is not zero"},
        {4, -1, 0, "the owner of input # is not 1, 2 or 3"},
        {5, -1, 0, "gate # is wrong: its kind is unknown, it reads a wire that is not lower than its own, or it is a NOT whose second number is not 0"},
        {6, -1, 0, "output # is no wire of the circuit"},
        {7, -1, 0, "the inputs are not # bytes long, or byte # of them is above 1"},
        {8, -1, 0, "the tapes are not # bytes long, or byte # of them is above 1"},
        {9, -1, 0, "the line is not # bytes long, or byte # of it is above 1"},
        {10, -1, 0, "lent buffer # has not exactly its length"},
        {11, 0, 0, "the site is not 1, 2 or 3"},
        {12, -1, 0, "the second inputs are not # bytes long, or byte # of them is above 1"},
        {13, -1, 0, "no such tapes exist: input # is the site's own and differs or, if # is not below the number of inputs, the bit opened at output # less that number differs"},
        {14, 0, 0, "the job has under 16 or over 41,520 bytes, or is not as long as its first number says"},
        {14, 4, 0, "the circuit of the job does not begin at 16"},
        {14, 8, 0, "the inputs of the job begin before 16 or behind its end"},
        {14, 12, 0, "the tapes of the job begin before its inputs or behind its end"},
        {15, 0, 0, "the text is empty"},
        {15, -1, 0, "line #: not of the form that belongs there, above a limit of the text, or a gate line too many; or the text ends there, and a line is missing"},
        {16, -1, 0, "line #: the gate word is not XOR, AND, INV or EQW"},
        {17, -1, 0, "line #: a wire is read before it is written, or written twice; or the text ends there, and an output wire is never written"},
        {100, -1, 0, "some site got two unlike copies at output #: the run stopped there, and nothing is to be shown"},
        /* So far tools/words. */
    };
    char digits[3 * sizeof place];
    size_t first = sizeof digits, length = 0, rest = place, row;
    const char *from = "";

    do {
        digits[--first] = (char)('0' + rest % 10);
        rest /= 10;
    } while (rest > 0);
    for (row = 0; row < sizeof rows / sizeof *rows && *from == '\0'; row++)
        if (rows[row].number == number && (rows[row].place < 0 || (size_t)rows[row].place == place) && (!rows[row].asked || rows[row].asked == (asked == 2 ? 2 : asked != 0)))
            from = rows[row].words;
    for (; *from != '\0'; from++) {
        const char *piece = *from == '#' ? digits + first : from;
        size_t bytes = *from == '#' ? sizeof digits - first : 1;

        for (; bytes > 0; bytes--, piece++, length++)
            if (length + 1 < room)
                text[length] = *piece;
    }
    if (room > 0)
        text[length < room ? length : room - 1] = '\0';
    return length;
}

#endif
