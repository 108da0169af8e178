#include "fuzz_input.h"

#include <stddef.h>
#include <string.h>

uint8_t byte(struct input *input)
{
    if (input->left == 0)
        return 0;
    input->left--;
    return *input->at++;
}

uint64_t wide(struct input *input, unsigned bytes)
{
    uint64_t number = 0;
    for (unsigned i = 0; i < bytes; i++)
        number = number << 8 | byte(input);
    return number;
}

uint64_t number(struct input *input)
{
    uint8_t how = byte(input);
    switch (how % 8) {
    case 0: return wide(input, 2);
    case 1: return wide(input, 3);
    case 2: return PLCN_LATEST_TIME - 4 + byte(input) % 8;
    case 3: return wide(input, 8);
    default: return byte(input);
    }
}

static uint32_t threshold(struct input *input)
{
    uint8_t how = byte(input);
    return how < 8 ? 999996u + how : how;
}

static struct plcn_value value(struct input *input)
{
    struct plcn_value value = {byte(input) & 3, (uint32_t)wide(input, 2)};
    return value;
}

struct plcn_setup setup(struct input *input)
{
    struct plcn_setup setup = {.node = byte(input), .error_register = byte(input)};
    uint32_t *each = &setup.thresholds.collision;
    setup.basic_timeout_us = (uint32_t)wide(input, 2);
    setup.cycle_us = value(input);
    setup.tolerance_ns = value(input);
    setup.counter_1 = (uint32_t)(0 - wide(input, 1));
    setup.counter_3 = (uint32_t)(0 - wide(input, 1));
    for (unsigned i = 0; i < 7; i++)
        each[i] = threshold(input);
    setup.queue_capacity = number(input) % 64 == 33 ? number(input) : byte(input) % 34;
    return setup;
}

struct plcn_update update(struct input *input)
{
    struct plcn_update update = {0};
    uint8_t set = byte(input);
    update.set_error_register = set & 1;
    update.set_cycle = set & 2;
    update.set_tolerance = set & 4;
    update.set_counter_1 = set & 8;
    update.set_counter_5 = set & 16;
    update.set_history = set & 32;
    update.error_register = byte(input);
    update.cycle_us = value(input);
    update.tolerance_ns = value(input);
    update.counter_1 = (uint32_t)wide(input, 4);
    return update;
}

const uint8_t *frame(struct input *input, uint8_t *end, uint64_t *length)
{
    uint8_t how = byte(input);
    size_t count = how & 1 ? byte(input) % 32 : wide(input, 2) % FRAME_MOST;
    if (count > input->left && !(how & 2))
        count = input->left;
    uint8_t *bytes = end - count;
    size_t given = count < input->left ? count : input->left;
    memset(bytes, how, count);
    memcpy(bytes, input->at, given);
    input->at += given;
    input->left -= given;
    if (how & 4 && count > 13) {
        bytes[12] = 0x88;
        bytes[13] = 0xAB;
    }
    if (how & 8 && count > 15) {
        static const uint8_t types[8] = {1, 3, 4, 5, 6, 6, 1, 5};
        bytes[14] = types[bytes[14] % 8];
        bytes[15] = how & 16 ? 255 : bytes[15];
    }
    *length = count;
    return count == 0 && how & 32 ? NULL : bytes;
}
