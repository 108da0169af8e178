/*
 * What calls may answer, by powerlink_cn.h and docs/RULES.md, written apart from the library.
 */
#ifndef FUZZ_EXPECTED_H
#define FUZZ_EXPECTED_H

#include "powerlink_cn.h"
#include <stdbool.h>

/* The refusal of a frame by its bytes alone, and what is read of it, by rule 13 of the rules. */
uint32_t read_frame(const uint8_t *bytes, uint64_t length, struct plcn_frame *frame);

/* Whether an answer is within its ranges, and what it does not use is 0. */
bool are_errors(const struct plcn_errors *errors);
bool is_nmt_answer(const struct plcn_nmt_answer *answer);
bool is_error_answer(const struct plcn_error_answer *answer);
bool is_frame_answer(const struct plcn_frame_answer *answer);
bool is_handed_out(const struct plcn_handed_out *answer);

/* What a started head has that none may have; a null pointer where there is nothing. */
const char *wrong_in_head(const struct plcn_head *head);

#endif
