/* The box of document 01 with Reqs 01 and 04 to 08 in plain C, written for speed: the rival that bench/ measures the
 * library against. The same seven functions, the same promise, as include/costerbloom.h says it. */
#ifndef PLAIN_H
#define PLAIN_H

#include "costerbloom.h"

uint64_t plain_take(costerbloom_receiver *receiver, uint32_t socket, uint8_t byte, uint32_t kind, uint8_t channel,
    uint8_t omni, uint8_t revision0, uint8_t revision1, uint8_t revision2, uint8_t revision3, uint8_t *memory,
    size_t memory_length, uint8_t *marks, size_t marks_length, uint8_t *receive, size_t receive_length, uint8_t *reply,
    size_t reply_length);

uint64_t plain_whole(const uint8_t *message, size_t message_length, uint32_t player, uint32_t kind, uint8_t channel,
    uint8_t omni, uint8_t revision0, uint8_t revision1, uint8_t revision2, uint8_t revision3, uint8_t *memory,
    size_t memory_length, uint8_t *marks, size_t marks_length, uint8_t *reply, size_t reply_length);

uint64_t plain_moves(const costerbloom_move *moves, size_t count, uint32_t player, uint32_t kind, uint8_t channel,
    uint8_t omni, uint8_t revision0, uint8_t revision1, uint8_t revision2, uint8_t revision3, uint8_t *memory,
    size_t memory_length, uint8_t *numbers, size_t numbers_length);

uint32_t plain_scale(uint32_t controller, uint32_t value, uint32_t kind);

uint32_t plain_back(
    uint32_t controller, uint32_t player, uint32_t kind, const uint8_t *memory, size_t memory_length);

uint64_t plain_screen(costerbloom_part *part, uint32_t program, uint32_t own, uint32_t player, uint32_t kind,
    const uint8_t *programs, size_t programs_length, const uint8_t *buffer, size_t buffer_length);

uint32_t plain_amp(uint32_t model, uint32_t kind);

#endif
