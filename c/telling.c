#include "telling.h"

#include <inttypes.h>

/* ---- Answers ---- */

static void tell_bytes(FILE *out, const uint8_t *bytes, uint64_t length)
{
    for (uint64_t i = 0; i < length; i++)
        fprintf(out, "%02X", bytes[i]);
}

static void tell_entry_bytes(FILE *out, const struct plcn_entry *entry)
{
    uint8_t bytes[PLCN_ENTRY_BYTES] = {0};
    plcn_entry_write(bytes, sizeof bytes, 0, entry);
    fputc(' ', out);
    tell_bytes(out, bytes, sizeof bytes);
}

static void tell_error(FILE *out, struct plcn_error error)
{
    switch (error.kind) {
    case PLCN_KIND_LOSS_OF_PRES:
    case PLCN_KIND_LOSS_OF_STATUS_RES:
    case PLCN_KIND_LATE_PRES:
    case PLCN_KIND_PDO_MAP_VERSION:
    case PLCN_KIND_PDO_PAYLOAD_SHORT:
    case PLCN_KIND_HEARTBEAT_TIMEOUT: fprintf(out, " (%u %u)", error.kind, error.a); break;
    case PLCN_KIND_UNEXPECTED_EVENT_IN_STATE:
        fprintf(out, " (%u 0x%02X %u)", error.kind, error.a, error.b);
        break;
    default: fprintf(out, " (%u)", error.kind);
    }
}

static void tell_errors(FILE *out, const char *name, struct plcn_errors errors)
{
    fprintf(out, " (%s", name);
    for (unsigned i = 0; i < errors.count && i < 2; i++)
        tell_error(out, errors.error[i]);
    fputc(')', out);
}

static void tell_reset(FILE *out, uint32_t reset)
{
    struct plcn_reset_steps steps;
    plcn_reset_steps(reset, &steps);
    fputs(" (entered", out);
    for (unsigned i = 0; i < steps.states && i < 5; i++)
        fprintf(out, " 0x%02X", steps.state[i]);
    fputs(") (restore", out);
    for (unsigned i = 0; i < steps.ranges && i < 3; i++)
        fprintf(out, " (0x%04X 0x%04X)", steps.range[i].first, steps.range[i].last);
    fputc(')', out);
}

static void tell_nmt(FILE *out, struct plcn_nmt_answer nmt)
{
    if (nmt.reset == PLCN_RESET_NONE)
        tell_errors(out, "errors", nmt.errors);
    else
        tell_reset(out, nmt.reset);
}

static void tell_frame(FILE *out, struct plcn_frame_answer frame)
{
    static const struct plcn_nmt_answer no_event;
    if (!frame.ours) {
        fputs(" not_ours", out);
        return;
    }
    tell_errors(out, "logged", frame.logged);
    tell_nmt(out, frame.has_nmt ? frame.nmt : no_event);
}

static void tell_entry(FILE *out, struct plcn_entry e)
{
    fprintf(out, " (entry (status %u) (queue %u) (mode %u) (profile %u) (code 0x%04X)", e.is_status,
            e.send_to_queue, e.mode, e.profile, e.code);
    fprintf(out, " (seconds %" PRIu32 ") (ns %" PRIu32 ") (additional %" PRIu64 "))", e.seconds,
            e.nanoseconds, e.additional);
}

static void tell_handed_out(FILE *out, const struct plcn_handed_out *answer)
{
    if (!answer->there) {
        fputs(" none", out);
        return;
    }
    fputs(" (entry", out);
    tell_entry_bytes(out, &answer->entry);
    fputc(')', out);
}

static void tell_due(FILE *out, struct plcn_due_answer due)
{
    if (due.there)
        fprintf(out, " %" PRIu64, due.time_us);
    else
        fputs(" none", out);
}

static void tell_verdict(FILE *out, uint8_t verdict)
{
    static const char *const names[] = {"lost", "kept", "open"};
    fprintf(out, " %s", verdict < 3 ? names[verdict] : "?");
}

static void tell_taken(FILE *out, enum line_kind kind, const struct answer *answer)
{
    switch (kind) {
    case LINE_NMT: tell_nmt(out, answer->nmt); break;
    case LINE_DLL: tell_errors(out, "errors", answer->errors); break;
    case LINE_ERROR:
        fprintf(out, " (action %u) (signal %u)", answer->error.action, answer->error.signal);
        tell_errors(out, "logged", answer->error.logged);
        break;
    case LINE_CYCLE: fprintf(out, " (cleared %u)", answer->cycle.cleared); break;
    case LINE_HANDOUT: tell_handed_out(out, &answer->handed_out); break;
    case LINE_TICK: tell_errors(out, "logged", answer->errors); break;
    case LINE_RANGE: tell_verdict(out, answer->range.verdict); break;
    case LINE_MARGIN: fprintf(out, " %" PRId64, answer->margin.margin_us); break;
    case LINE_DUE: tell_due(out, answer->due); break;
    case LINE_FRAME: tell_frame(out, answer->frame); break;
    case LINE_WEIGHT: fprintf(out, " %u", answer->grams); break;
    case LINE_BITMAP:
        fprintf(out, " (nodes %" PRIu32 ") ", answer->bitmap.nodes);
        tell_bytes(out, answer->bitmap.byte, sizeof answer->bitmap.byte);
        break;
    case LINE_STATE:
    case LINE_COMMAND: fprintf(out, " 0x%02X", answer->number); break;
    case LINE_CODE: fprintf(out, " %u", answer->number); break;
    case LINE_ENTRYREAD: tell_entry(out, answer->entry); break;
    default: break;
    }
}

void tell_answer(FILE *out, enum line_kind kind, const struct answer *answer)
{
    if (answer->refused != PLCN_OK) {
        fprintf(out, "(refused %" PRIu32 ")\n", answer->refused);
        return;
    }
    fputs("(taken", out);
    tell_taken(out, kind, answer);
    fputs(")\n", out);
}

/* ---- The station ---- */

static void tell_counter(FILE *out, const char *name, struct plcn_counter counter)
{
    fprintf(out, "(%s (level %" PRIu32 ") (cumulative %" PRIu32 "))\n", name, counter.level,
            counter.cumulative);
}

static void tell_machines(FILE *out, const struct plcn_head *head)
{
    fprintf(out, "(nmt (state 0x%02" PRIX32 ") (enabled %" PRIu32 ") (ready %" PRIu32 ")",
            head->state, head->enabled, head->ready);
    fprintf(out, " (node %" PRIu32 ") (flags %" PRIu32 ") (timeout %" PRIu32 "))\n", head->node,
            head->feature_flags, head->basic_timeout_us);
    fprintf(out, "(dll %" PRIu32 ")\n", head->dll_state);
    tell_counter(out, "collision", head->collision);
    tell_counter(out, "loss_of_soc", head->loss_of_soc);
    tell_counter(out, "loss_of_soa", head->loss_of_soa);
    tell_counter(out, "loss_of_preq", head->loss_of_preq);
    tell_counter(out, "soc_jitter", head->soc_jitter);
    tell_counter(out, "crc_errors", head->crc_errors);
    tell_counter(out, "heartbeat_timeout", head->heartbeat_timeout);
    fprintf(out, "(loss_of_link %" PRIu32 ")\n", head->lost_links);
}

static void tell_moment(FILE *out, uint32_t there, struct plcn_split_time time)
{
    if (there)
        fprintf(out, "%" PRIu64, plcn_time(time));
    else
        fputs("none", out);
}

static void tell_soc(FILE *out, const struct plcn_head *head)
{
    fprintf(out, "(soc (last %" PRIu64 ") (check %" PRIu32 ") (deadline ",
            plcn_time(head->last_soc), head->check_on);
    tell_moment(out, head->has_deadline, head->deadline);
    fprintf(out, ") (status_changed %" PRIu32 "))\n", head->error_status_changed);
}

static void tell_object(FILE *out, const char *name, uint32_t there, uint32_t value)
{
    if (there)
        fprintf(out, " (%s %" PRIu32 ")", name, value);
    else
        fprintf(out, " (%s missing)", name);
}

static void tell_dictionary(FILE *out, const struct plcn_head *head)
{
    fprintf(out, "(dictionary (register %" PRIu32 ")", head->error_register);
    tell_object(out, "cycle", head->has_cycle, head->cycle_us);
    tell_object(out, "tolerance", head->has_tolerance, head->tolerance_ns);
    fprintf(out, " (c1 %" PRIu32 ") (c2 %" PRIu32 ") (c3 %" PRIu32 ") (c5 %" PRIu32 "))\n",
            head->counter_1, head->counter_2, head->counter_3, head->counter_5);
}

static void tell_memories(FILE *out, const struct station *s)
{
    struct plcn_handed_out entry;
    fprintf(out, "(queue (capacity %" PRIu32 ")", s->head.queue_capacity);
    for (uint64_t i = 0; plcn_queue_entry(&s->head, &s->queue, i, &entry), entry.there; i++)
        tell_entry_bytes(out, &entry.entry);
    fputs(")\n(history", out);
    for (uint64_t i = 0; plcn_history_entry(&s->head, &s->history, i, &entry), entry.there; i++)
        tell_entry_bytes(out, &entry.entry);
    fputs(")\n", out);
}

static void tell_places(FILE *out, const struct plcn_watched *places, uint64_t from, uint64_t to)
{
    for (uint64_t i = from; i < to; i++)
        fprintf(out, " (%" PRIu64 " %" PRIu64 " %" PRIu64 ")", places[i].node, places[i].timeout_us,
                places[i].last_heard_us);
}

static void tell_run(FILE *out, const struct station *s)
{
    uint64_t watched = s->watched < s->lent ? s->watched : s->lent;
    uint64_t filled = s->lent;
    while (filled > watched && s->places[filled - 1].node == 0 &&
           s->places[filled - 1].timeout_us == 0 && s->places[filled - 1].last_heard_us == 0)
        filled--;
    fputs("(watched", out);
    tell_places(out, s->places, 0, watched);
    fprintf(out, ")\n(run (places %" PRIu64 ") (number %" PRIu64 ") (rest", s->lent, s->watched);
    tell_places(out, s->places, watched, filled);
    fputs("))\n", out);
}

static void tell_crossings(FILE *out, const struct plcn_head *h)
{
    fprintf(out,
            "(crossings %" PRIu32 " %" PRIu32 " %" PRIu32 " %" PRIu32 " %" PRIu32 " %" PRIu32
            " %" PRIu32 ")\n",
            h->collision.crossings, h->loss_of_soc.crossings, h->loss_of_soa.crossings,
            h->loss_of_preq.crossings, h->soc_jitter.crossings, h->crc_errors.crossings,
            h->heartbeat_timeout.crossings);
}

static void tell_thresholds(FILE *out, const struct plcn_head *h)
{
    fprintf(out,
            "(thresholds %" PRIu32 " %" PRIu32 " %" PRIu32 " %" PRIu32 " %" PRIu32 " %" PRIu32
            " %" PRIu32 ")\n",
            h->collision.threshold, h->loss_of_soc.threshold, h->loss_of_soa.threshold,
            h->loss_of_preq.threshold, h->soc_jitter.threshold, h->crc_errors.threshold,
            h->heartbeat_timeout.threshold);
}

static void tell_recipe(FILE *out, const struct plcn_weigh *weigh)
{
    struct plcn_component places[PLCN_RECIPE_PLACES];
    plcn_weigh_places(weigh, places);
    fputs("(recipe", out);
    for (unsigned i = 0; i < PLCN_RECIPE_PLACES; i++)
        fprintf(out, " (%u %u)", places[i].bin, places[i].grams);
    fputs(")\n", out);
}

void tell_station(FILE *out, const struct station *s)
{
    tell_machines(out, &s->head);
    tell_soc(out, &s->head);
    tell_dictionary(out, &s->head);
    tell_memories(out, s);
    tell_run(out, s);
    fputs("(earliest ", out);
    tell_moment(out, s->head.has_earliest, s->head.earliest);
    fputs(")\n", out);
    tell_crossings(out, &s->head);
    fputs(s->desk_length > 0 ? "(desk " : "(desk", out);
    tell_bytes(out, s->desk, s->desk_length);
    fputs(")\n", out);
    tell_thresholds(out, &s->head);
    tell_recipe(out, &s->weigh);
}

/* ---- Why ---- */

/* What an event leaves of a head, which is a copy: the library makes it. */
static struct plcn_head left_by(struct plcn_head head, uint32_t event)
{
    struct plcn_nmt_answer answer;
    plcn_nmt_event(&head, event, &answer);
    return head;
}

static bool is_reset(uint32_t event)
{
    return event >= PLCN_EVENT_RESET && event <= PLCN_EVENT_RESET_CONFIGURATION;
}

static bool stays(const struct plcn_head *head, uint32_t event)
{
    return left_by(*head, event).state == head->state;
}

/* Whether some event that keeps the state of one head moves that of another. */
static bool gains(const struct plcn_head *here, const struct plcn_head *there)
{
    for (uint32_t event = 0; event <= PLCN_EVENT_ALL_MANDATORY_CNS_OPERATIONAL; event++) {
        if (stays(here, event) && !stays(there, event))
            return true;
    }
    return false;
}

/* What an event moves or sets; nothing of one that changes nothing, or is a reset. */
static void tell_lead(FILE *out, const struct plcn_head *before, uint32_t event)
{
    struct plcn_head after = left_by(*before, event);
    struct plcn_text name = plcn_event_name(event), state = plcn_state_name(after.state);
    if (is_reset(event))
        return;
    if (after.state != before->state)
        fprintf(out, "; %s leads to %s", name.text, state.text);
    else if (after.enabled && !before->enabled)
        fprintf(out, "; %s enables", name.text);
    else if (after.ready && !before->ready)
        fprintf(out, "; %s makes ready", name.text);
}

void tell_why(FILE *out, const struct plcn_head *head)
{
    struct plcn_head enabled = *head, ready = *head;
    struct plcn_text state = plcn_state_name(head->state);
    struct plcn_text reset = plcn_state_name(left_by(*head, PLCN_EVENT_RESET).state);
    enabled.enabled = 1;
    ready.ready = 1;
    fprintf(out, "(why %s, %s, %s", state.text, head->enabled ? "enabled" : "not enabled",
            head->ready ? "ready" : "not ready");
    if (gains(head, &enabled))
        fputs("; waits for the enable", out);
    if (gains(head, &ready))
        fputs("; waits for the ready word", out);
    for (uint32_t event = 0; event <= PLCN_EVENT_ALL_MANDATORY_CNS_OPERATIONAL; event++)
        tell_lead(out, head, event);
    fprintf(out, "; a reset leads to %s)\n", reset.text);
}
