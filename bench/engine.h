/* A plain engine in C, written for speed and proved in nothing: check, run, view and re-taping (engine.c) and a circuit file from a text
   (bristol.c) with the answers and the buffers of include/bakebutton.h. The benchmark measures the proved engine beside it, and bench/held.py
   holds it to the evaluator. */
#ifndef ENGINE_H
#define ENGINE_H

#include "bakebutton.h"

struct bakebutton_counts_answer plain_check(const uint8_t *file, size_t file_length);
struct bakebutton_answer plain_run(const uint8_t *file, size_t file_length, const uint8_t *inputs, size_t inputs_length,
                                   const uint8_t *tapes, size_t tapes_length, const uint8_t *line, size_t line_length,
                                   uint8_t *outputs, size_t outputs_length, uint8_t *transcript, size_t transcript_length,
                                   uint8_t *store, size_t store_length);
struct bakebutton_answer plain_view(const uint8_t *file, size_t file_length, const uint8_t *inputs, size_t inputs_length,
                                    const uint8_t *tapes, size_t tapes_length, size_t site, uint8_t *view, size_t view_length,
                                    uint8_t *store, size_t store_length);
struct bakebutton_answer plain_retape(const uint8_t *file, size_t file_length, const uint8_t *inputs, size_t inputs_length,
                                      const uint8_t *tapes, size_t tapes_length, const uint8_t *second, size_t second_length,
                                      size_t site, uint8_t *fresh, size_t fresh_length, uint8_t *room, size_t room_length);
struct bakebutton_file_answer plain_from_bristol(const uint8_t *text, size_t text_length, const uint8_t *owners, size_t owners_length,
                                                 uint8_t *room, size_t room_length);

#endif
