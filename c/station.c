#include "station.h"

#include <string.h>

void new_station(struct station *station, bool over)
{
    memset(station, 0, sizeof *station);
    station->over = over;
    station->lent = PLCN_WATCHED_PLACES;
}

/* ---- The head ---- */

/* The run as the library's struct has it. */
static struct plcn_run run_of(const struct station *station)
{
    struct plcn_run run;
    memcpy(run.place, station->places, sizeof run.place);
    run.number = station->watched;
    return run;
}

/* The calls that are lent the run, as a run. */
static uint32_t on_run(struct station *s, const struct line *line, struct answer *answer)
{
    struct plcn_run run = run_of(s);
    uint32_t refused = PLCN_OK;
    switch (line->kind) {
    case LINE_START: refused = plcn_start(&s->head, &run, &line->setup); break;
    case LINE_HEARD: refused = plcn_heard(&s->head, &run, line->node, line->time_us); break;
    case LINE_ADD: refused = plcn_add(&s->head, &run, line->node, line->time_us); break;
    case LINE_REMOVE: refused = plcn_remove(&s->head, &run, line->node); break;
    case LINE_DUE: refused = plcn_next_due(&s->head, &run, &answer->due); break;
    case LINE_BITMAP: refused = plcn_bitmap(&run, &answer->bitmap); break;
    default:
        refused = plcn_tick(&s->head, &s->queue, &s->history, &run, line->time_us, &answer->errors);
    }
    memcpy(s->places, run.place, sizeof run.place);
    s->watched = run.number;
    return refused;
}

/* The same calls, as places. */
static uint32_t on_places(struct station *s, const struct line *line, struct answer *answer)
{
    struct plcn_head *head = &s->head;
    struct plcn_watched *places = s->places;
    switch (line->kind) {
    case LINE_START: return plcn_start_over(head, places, s->lent, s->watched, &line->setup);
    case LINE_HEARD:
        return plcn_heard_over(head, places, s->lent, s->watched, line->node, line->time_us);
    case LINE_ADD:
        return plcn_add_over(head, places, s->lent, &s->watched, line->node, line->time_us);
    case LINE_REMOVE: return plcn_remove_over(head, places, s->lent, &s->watched, line->node);
    case LINE_DUE: return plcn_next_due_over(head, places, s->lent, s->watched, &answer->due);
    case LINE_BITMAP: return plcn_bitmap_over(places, s->lent, s->watched, &answer->bitmap);
    default:
        return plcn_tick_over(head, &s->queue, &s->history, places, s->lent, s->watched,
                              line->time_us, &answer->errors);
    }
}

/* Whether a call is lent the run. */
static bool is_lent_run(enum line_kind kind)
{
    return kind == LINE_START || kind == LINE_HEARD || kind == LINE_ADD || kind == LINE_REMOVE ||
           kind == LINE_DUE || kind == LINE_BITMAP || kind == LINE_TICK;
}

/* The calls that are lent no run. */
static uint32_t on_head(struct station *s, const struct line *line, struct answer *answer)
{
    struct plcn_head *head = &s->head;
    switch (line->kind) {
    case LINE_NMT: return plcn_nmt_event(head, line->number, &answer->nmt);
    case LINE_DLL: return plcn_dll_event(head, line->number, line->expect_preq, &answer->errors);
    case LINE_ERROR: return plcn_handle_error(head, line->number, line->a, line->b, &answer->error);
    case LINE_CYCLE: return plcn_cycle_complete(head, &answer->cycle);
    case LINE_WITHDRAW: return plcn_withdraw(head);
    case LINE_HANDOUT: return plcn_hand_out(head, &s->queue, &answer->handed_out);
    case LINE_LOAD: return plcn_load(head, &s->history, &line->update, line->bytes, line->length);
    case LINE_ARM: return plcn_arm(head, line->time_us);
    case LINE_RANGE: return plcn_range(head, line->time_us, line->latest_us, &answer->range);
    case LINE_MARGIN: return plcn_margin(head, line->time_us, &answer->margin);
    default:
        return plcn_frame(head, &s->queue, &s->history, line->time_us, line->bytes, line->length,
                          &answer->frame);
    }
}

static uint32_t call_head(struct station *station, const struct line *line, struct answer *answer)
{
    if (!is_lent_run(line->kind))
        return on_head(station, line, answer);
    if (station->over || station->lent != PLCN_WATCHED_PLACES)
        return on_places(station, line, answer);
    return on_run(station, line, answer);
}

/* ---- The weigh head ---- */

/* The calls on its node and its memory that are answered nothing. */
static uint32_t weigh_quietly(struct station *s, const struct line *line)
{
    struct plcn_weigh *weigh = &s->weigh;
    struct plcn_memory *memory = &s->memory;
    switch (line->kind) {
    case LINE_START: return plcn_weigh_start(weigh, memory, &line->setup);
    case LINE_WITHDRAW: return plcn_weigh_withdraw(weigh, memory);
    case LINE_HEARD: return plcn_weigh_heard(weigh, memory, line->node, line->time_us);
    case LINE_LOAD: return plcn_weigh_load(weigh, memory, &line->update, line->bytes, line->length);
    case LINE_ARM: return plcn_weigh_arm(weigh, memory, line->time_us);
    case LINE_ADD: return plcn_weigh_add(weigh, memory, line->node, line->time_us);
    case LINE_REMOVE: return plcn_weigh_remove(weigh, memory, line->node);
    default: return plcn_weigh_load_recipe(weigh, memory, line->components, line->component_number);
    }
}

static uint32_t call_weigh(struct station *s, const struct line *line, struct answer *answer)
{
    struct plcn_weigh *weigh = &s->weigh;
    struct plcn_memory *memory = &s->memory;
    switch (line->kind) {
    case LINE_NMT: return plcn_weigh_nmt_event(weigh, memory, line->number, &answer->nmt);
    case LINE_DLL:
        return plcn_weigh_dll_event(weigh, memory, line->number, line->expect_preq,
                                    &answer->errors);
    case LINE_ERROR:
        return plcn_weigh_handle_error(weigh, memory, line->number, line->a, line->b,
                                       &answer->error);
    case LINE_CYCLE: return plcn_weigh_cycle_complete(weigh, memory, &answer->cycle);
    case LINE_HANDOUT: return plcn_weigh_hand_out(weigh, memory, &answer->handed_out);
    case LINE_TICK: return plcn_weigh_tick(weigh, memory, line->time_us, &answer->errors);
    case LINE_RANGE: return plcn_weigh_range(weigh, line->time_us, line->latest_us, &answer->range);
    case LINE_MARGIN: return plcn_weigh_margin(weigh, line->time_us, &answer->margin);
    case LINE_DUE: return plcn_weigh_next_due(weigh, memory, &answer->due);
    case LINE_FRAME:
        return plcn_weigh_frame(weigh, memory, line->time_us, line->bytes, line->length,
                                &answer->frame);
    case LINE_WEIGHT: return plcn_weigh_weight(weigh, line->number, &answer->grams);
    default: return weigh_quietly(s, line);
    }
}

/* ---- Side by side ---- */

static bool same_entry(struct plcn_entry a, struct plcn_entry b)
{
    return a.is_status == b.is_status && a.send_to_queue == b.send_to_queue && a.mode == b.mode &&
           a.profile == b.profile && a.code == b.code && a.seconds == b.seconds &&
           a.nanoseconds == b.nanoseconds && a.additional == b.additional;
}

/* Whether two answers are the same. A struct with gaps is compared by its fields. */
static bool same_answer(const struct answer *a, const struct answer *b)
{
    return a->refused == b->refused && memcmp(&a->nmt, &b->nmt, sizeof a->nmt) == 0 &&
           memcmp(&a->errors, &b->errors, sizeof a->errors) == 0 &&
           memcmp(&a->error, &b->error, sizeof a->error) == 0 &&
           a->cycle.cleared == b->cycle.cleared && a->handed_out.there == b->handed_out.there &&
           same_entry(a->handed_out.entry, b->handed_out.entry) &&
           a->range.verdict == b->range.verdict && a->margin.margin_us == b->margin.margin_us &&
           a->due.there == b->due.there && a->due.time_us == b->due.time_us &&
           memcmp(&a->frame, &b->frame, sizeof a->frame) == 0;
}

/* In what the heads and their memories differ; a null pointer where they are the same. */
static const char *heads_differ(const struct station *s)
{
    struct plcn_head head;
    struct plcn_run run = run_of(s);
    plcn_weigh_head(&s->weigh, &head);
    if (memcmp(&head, &s->head, sizeof head) != 0)
        return "their heads";
    if (memcmp(&s->memory.queue, &s->queue, sizeof s->queue) != 0)
        return "the bytes of the queue";
    if (memcmp(&s->memory.history, &s->history, sizeof s->history) != 0)
        return "the bytes of the history";
    if (memcmp(&s->memory.run, &run, sizeof run) != 0)
        return "the run";
    return NULL;
}

/* What a recipe or a weight asks of the weigh head alone: of a recipe that is loaded the head gets
   the ready word. */
static const char *play_recipe(struct station *s, const struct line *line, struct answer *answer)
{
    struct plcn_nmt_answer nmt;
    answer->refused = call_weigh(s, line, answer);
    if (line->kind == LINE_RECIPE && answer->refused == PLCN_OK &&
        plcn_nmt_event(&s->head, PLCN_EVENT_CN_CONFIGURATION_COMPLETE, &nmt) != PLCN_OK)
        return "the ready word";
    return NULL;
}

/* Makes a call on both. A run of other than 32 places is lent to the head alone, which refuses it:
   a refused call changes nothing on the weigh head either. */
static const char *play_call(struct station *s, const struct line *line, struct answer *answer)
{
    const char *differ = NULL;
    struct answer weighed;
    s->memory.run = run_of(s);
    memset(answer, 0, sizeof *answer);
    if (line->kind == LINE_RECIPE || line->kind == LINE_WEIGHT) {
        differ = play_recipe(s, line, answer);
    } else {
        answer->refused = call_head(s, line, answer);
        if (is_lent_run(line->kind) && s->lent != PLCN_WATCHED_PLACES)
            return answer->refused != PLCN_OK ? NULL : "a run of other than 32 places";
        if (line->kind == LINE_BITMAP)
            return NULL;
        memset(&weighed, 0, sizeof weighed);
        weighed.refused = call_weigh(s, line, &weighed);
        if (!same_answer(answer, &weighed))
            return "what they answer";
    }
    if (!s->is_started && answer->refused != PLCN_OK)
        return NULL;
    return differ ? differ : heads_differ(s);
}

/* ---- Lines that are no calls on a head ---- */

static void watch(struct station *s, struct plcn_watched record)
{
    s->places[s->watched++] = record;
    if (s->lent < s->watched)
        s->lent = s->watched;
}

static void unwatch(struct station *s)
{
    memset(s->places, 0, sizeof s->places);
    s->lent = PLCN_WATCHED_PLACES;
    s->watched = 0;
}

static enum played set_up(struct station *s, const struct line *line)
{
    switch (line->kind) {
    case LINE_WATCH: watch(s, line->record); break;
    case LINE_UNWATCH: unwatch(s); break;
    case LINE_LEND:
        s->lent = line->places;
        s->watched = line->watched;
        break;
    case LINE_DESK:
        memcpy(s->desk, line->bytes, line->length);
        s->desk_length = line->length;
        break;
    default: break;
    }
    return PLAYED_NOTHING;
}

/* What is read or written without a head. */
static uint32_t read_or_write(struct station *s, const struct line *line, struct answer *answer)
{
    switch (line->kind) {
    case LINE_STATE: return plcn_read_state(line->number, &answer->number);
    case LINE_COMMAND: return plcn_read_command(line->number, &answer->number);
    case LINE_CODE: return plcn_read_code(line->number, &answer->number);
    case LINE_ENTRYREAD: return plcn_entry_read(line->bytes, line->length, 0, &answer->entry);
    default: return plcn_entry_write(s->desk, s->desk_length, line->number, &line->entry);
    }
}

/* Whether a line can be played as things stand. */
static bool takes(const struct station *s, enum line_kind kind)
{
    switch (kind) {
    case LINE_UNREADABLE: return false;
    case LINE_WATCH: return s->watched < RUN_PLACES;
    case LINE_NOTHING:
    case LINE_START:
    case LINE_UNWATCH:
    case LINE_LEND:
    case LINE_DESK: return true;
    default: return s->is_started;
    }
}

enum played play_line(struct station *station, const struct line *line, struct answer *answer,
                      const char **differ)
{
    *differ = NULL;
    if (!takes(station, line->kind))
        return PLAYED_UNREADABLE;
    switch (line->kind) {
    case LINE_NOTHING:
    case LINE_WATCH:
    case LINE_UNWATCH:
    case LINE_LEND:
    case LINE_DESK: return set_up(station, line);
    case LINE_SHOW: return PLAYED_SHOW;
    case LINE_WHY: return PLAYED_WHY;
    case LINE_STATE:
    case LINE_COMMAND:
    case LINE_CODE:
    case LINE_ENTRYREAD:
    case LINE_ENTRYWRITE:
        memset(answer, 0, sizeof *answer);
        answer->refused = read_or_write(station, line, answer);
        return PLAYED_ANSWER;
    default:
        *differ = play_call(station, line, answer);
        if (line->kind == LINE_START && answer->refused == PLCN_OK)
            station->is_started = true;
        return PLAYED_ANSWER;
    }
}
