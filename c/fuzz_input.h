/*
 * The bytes that a list of calls is made of, as numbers and structs. Behind the last byte come
 * zeros.
 */
#ifndef FUZZ_INPUT_H
#define FUZZ_INPUT_H

#include "powerlink_cn.h"

/* The most bytes of a frame. */
#define FRAME_MOST 1536

struct input {
    const uint8_t *at;
    size_t left;
};

uint8_t byte(struct input *input);

/* A number of so many bytes, the highest first. */
uint64_t wide(struct input *input, unsigned bytes);

/* A number of 64 bits: small ones, those about the limit of times, and any. */
uint64_t number(struct input *input);

/* What a head is started with, within its limits and beyond. */
struct plcn_setup setup(struct input *input);

/* Values that are loaded. */
struct plcn_update update(struct input *input);

/* A frame of up to FRAME_MOST bytes, which ends at a place. Many are POWERLINK frames by their
   first bytes; one of no bytes may be a null pointer. */
const uint8_t *frame(struct input *input, uint8_t *end, uint64_t *length);

#endif
