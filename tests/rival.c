/* The box behind the two symbols that the plain C bench asks for (its rival.h). */
#include <string.h>

#include "box.h"
#include "rival.h"

void rival_read(const uint8_t *text, size_t text_len, uint8_t *program, size_t program_len, uint32_t out[6])
{
    size_t line;
    uint16_t number = box_read(text, text_len, program, program_len, &line);
    memset(out, 0, 6 * sizeof out[0]);
    out[0] = number ? 4 : 5;
    out[1] = number;
    out[4] = (uint32_t)line;
}

void rival_run(const uint8_t *text, size_t text_len, const uint8_t *turns, size_t turns_len,
               uint8_t *program, size_t program_len, uint8_t *state, size_t state_len, uint32_t out[6])
{
    size_t number, thread, block, line, moves;
    out[0] = box_run(text, text_len, turns, turns_len, program, program_len, state, state_len, &number, &thread, &block, &line, &moves);
    out[1] = (uint32_t)number;
    out[2] = (uint32_t)thread;
    out[3] = (uint32_t)block;
    out[4] = (uint32_t)line;
    out[5] = (uint32_t)moves;
}
