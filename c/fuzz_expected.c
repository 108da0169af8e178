#include "fuzz_expected.h"

#include <string.h>

static bool is_command(uint8_t command)
{
    return (command >= 0x21 && command <= 0x24) || (command >= 0x28 && command <= 0x2B);
}

uint32_t read_frame(const uint8_t *bytes, uint64_t length, struct plcn_frame *frame)
{
    memset(frame, 0, sizeof *frame);
    if (length < 17)
        return PLCN_REFUSED_FRAME_TOO_SHORT;
    if (bytes[12] != 0x88 || bytes[13] != 0xAB)
        return PLCN_REFUSED_OTHER_ETHERTYPE;
    frame->message = bytes[14];
    frame->destination = bytes[15];
    frame->source = bytes[16];
    if (bytes[14] == 1 || (bytes[14] >= 3 && bytes[14] <= 5))
        return PLCN_OK;
    if (bytes[14] != 6)
        return PLCN_REFUSED_OTHER_MESSAGE_TYPE;
    if (length < 18 || (bytes[17] == 4 && length < 19))
        return PLCN_REFUSED_FRAME_TOO_SHORT;
    frame->service = bytes[17];
    if (bytes[17] == 4 && !is_command(bytes[18]))
        return PLCN_REFUSED_UNKNOWN_NUMBER;
    frame->command = bytes[17] == 4 ? bytes[18] : 0;
    return PLCN_OK;
}

bool are_errors(const struct plcn_errors *errors)
{
    if (errors->count > 2)
        return false;
    for (unsigned i = 0; i < 2; i++) {
        const struct plcn_error *e = &errors->error[i];
        if (i < errors->count ? e->kind > PLCN_KIND_HEARTBEAT_TIMEOUT : e->kind | e->a | e->b)
            return false;
    }
    return true;
}

bool is_nmt_answer(const struct plcn_nmt_answer *answer)
{
    return are_errors(&answer->errors) && answer->reset <= PLCN_RESET_CONFIGURATION;
}

bool is_error_answer(const struct plcn_error_answer *answer)
{
    return answer->action <= PLCN_ACTION_RESET_NODE && answer->signal <= 1 &&
           are_errors(&answer->logged);
}

bool is_frame_answer(const struct plcn_frame_answer *answer)
{
    static const struct plcn_frame_answer not_ours;
    if (!answer->ours)
        return memcmp(answer, &not_ours, sizeof not_ours) == 0;
    return answer->ours == 1 && answer->has_nmt <= 1 && are_errors(&answer->logged) &&
           is_nmt_answer(&answer->nmt);
}

bool is_handed_out(const struct plcn_handed_out *answer)
{
    return answer->there <= 1 && answer->entry.is_status <= 1 && answer->entry.send_to_queue <= 1 &&
           answer->entry.mode <= 3 && answer->entry.profile <= 4095 &&
           (answer->there || (answer->entry.code | answer->entry.seconds) == 0);
}

const char *wrong_in_head(const struct plcn_head *head)
{
    uint8_t state;
    if (plcn_read_state(head->state, &state) != PLCN_OK)
        return "a started head has no state";
    if (head->dll_state > PLCN_DLL_STATE_WAIT_SOA || head->enabled > 1 || head->ready > 1)
        return "a started head has a DLL state or a flag outside its range";
    if (head->queue_length > head->queue_capacity || head->queue_capacity > PLCN_QUEUE_PLACES)
        return "a started head has more entries than places in its queue";
    if (head->history_count > PLCN_HISTORY_PLACES)
        return "a started head has more entries than places in its history";
    if (plcn_time(head->last_soc) > PLCN_LATEST_TIME)
        return "a started head has an SoC after the latest time";
    return NULL;
}
