/*
 * A byte string becomes a list of calls with any numbers on heads and weigh heads, started or not,
 * for libFuzzer. Behind each call:
 *
 *   - a refused one left every byte that it was lent as it was, its answer's too
 *   - one that was taken answers within the ranges that powerlink_cn.h names
 *   - a frame is read as fuzz_expected.c reads it
 *
 * What is lent stands before a page that nobody may touch, so that a byte past an object's end is
 * found though the archive is built without a sanitizer. Bytes before it are watched as marks.
 */
#include "fuzz_expected.h"
#include "fuzz_input.h"
#include "guarded.h"

#include <inttypes.h>
#include <stdbool.h>
#include <stdio.h>
#include <stdlib.h>
#include <string.h>

#define PLACES_MOST 40

/* As much as any answer takes. */
union answer {
    struct plcn_nmt_answer nmt;
    struct plcn_errors errors;
    struct plcn_error_answer error;
    struct plcn_cycle_answer cycle;
    struct plcn_handed_out handed_out;
    struct plcn_range_answer range;
    struct plcn_margin_answer margin;
    struct plcn_due_answer due;
    struct plcn_frame_answer frame;
    struct plcn_frame read;
    struct plcn_bitmap bitmap;
    struct plcn_entry entry;
    struct plcn_reset_steps steps;
    struct plcn_component places[PLCN_RECIPE_PLACES];
    struct plcn_head head;
    uint16_t grams;
    uint8_t number;
};

/* What is lent: each object in pages of its own. */
struct world {
    struct plcn_head *head;
    struct plcn_run *run;
    struct plcn_watched *places; /* of the functions plcn_.._over */
    uint64_t *number;
    struct plcn_queue *queue;
    struct plcn_history *history;
    struct plcn_weigh *weigh;
    struct plcn_memory *memory;
    uint8_t *buffer; /* of entries */
    uint8_t *frame_end;
    bool is_started; /* whether the head is a started one, which no bytes were written into */
    bool is_weigh_started;
};

/* An object with a copy of its bytes before a call. */
struct lent {
    uint8_t *at;
    size_t size;
    uint8_t before[sizeof(struct plcn_memory)];
};

enum { LENT = 10, BUFFER = 100 };

static struct world world;
static struct lent lent[LENT];
static uint64_t calls, taken, frames;

static void fail(const char *what)
{
    fprintf(stderr, "fuzz: %s\n", what);
    abort();
}

/* ---- Calls ---- */

static void note_before(void)
{
    for (unsigned i = 0; i < LENT; i++)
        memcpy(lent[i].before, lent[i].at, lent[i].size);
}

/* Whether a call that is refused left all as it was. */
static void look_behind(uint32_t refused)
{
    calls++;
    if (refused > PLCN_REFUSED_EARLIEST_AFTER_LATEST)
        fail("a call answers a number that is no refusal");
    taken += refused == PLCN_OK;
    for (unsigned i = 0; i < LENT; i++) {
        if (refused != PLCN_OK && memcmp(lent[i].before, lent[i].at, lent[i].size) != 0)
            fail("a refused call wrote something");
        if (!guarded_is_whole(lent[i].at))
            fail("a call wrote before an object");
    }
}

/* The answer of a call: so many bytes, which end where their pages end. */
static void *answer_of(size_t size)
{
    return lent[LENT - 1].at + sizeof(union answer) - size;
}

#define ANSWER(type) ((struct type *)answer_of(sizeof(struct type)))

static void want(uint32_t refused, bool is_right)
{
    look_behind(refused);
    if (refused == PLCN_OK && !is_right)
        fail("an answer is outside its range");
}

static void on_machines(struct input *in, uint8_t op, bool weigh)
{
    struct plcn_nmt_answer *nmt = ANSWER(plcn_nmt_answer);
    struct plcn_errors *errors = ANSWER(plcn_errors);
    struct plcn_error_answer *error = ANSWER(plcn_error_answer);
    struct plcn_cycle_answer *cycle = ANSWER(plcn_cycle_answer);
    uint64_t n = op % 4 == 0 && byte(in) % 4 ? byte(in) % 20 : number(in);
    uint8_t a = byte(in), b = byte(in);
    switch (op % 4) {
    case 0:
        want(weigh ? plcn_weigh_nmt_event(world.weigh, world.memory, n, nmt)
                   : plcn_nmt_event(world.head, n, nmt),
             is_nmt_answer(nmt));
        break;
    case 1:
        want(weigh ? plcn_weigh_dll_event(world.weigh, world.memory, n, a, errors)
                   : plcn_dll_event(world.head, n, a, errors),
             are_errors(errors));
        break;
    case 2:
        want(weigh ? plcn_weigh_handle_error(world.weigh, world.memory, n, a, b, error)
                   : plcn_handle_error(world.head, n, a, b, error),
             is_error_answer(error));
        break;
    default:
        want(weigh ? plcn_weigh_cycle_complete(world.weigh, world.memory, cycle)
                   : plcn_cycle_complete(world.head, cycle),
             cycle->cleared <= 1);
    }
}

static void on_clock(struct input *in, uint8_t op, bool weigh)
{
    struct plcn_errors *logged = ANSWER(plcn_errors);
    struct plcn_range_answer *range = ANSWER(plcn_range_answer);
    struct plcn_margin_answer *margin = ANSWER(plcn_margin_answer);
    uint64_t time = number(in), latest = number(in);
    switch (op % 4) {
    case 0:
        want(weigh ? plcn_weigh_tick(world.weigh, world.memory, time, logged)
                   : plcn_tick(world.head, world.queue, world.history, world.run, time, logged),
             are_errors(logged));
        break;
    case 1:
        want(weigh ? plcn_weigh_range(world.weigh, time, latest, range)
                   : plcn_range(world.head, time, latest, range),
             range->verdict <= PLCN_SOC_OPEN);
        break;
    case 2:
        want(weigh ? plcn_weigh_margin(world.weigh, time, margin)
                   : plcn_margin(world.head, time, margin),
             true);
        break;
    default:
        look_behind(weigh ? plcn_weigh_arm(world.weigh, world.memory, time)
                          : plcn_arm(world.head, time));
    }
}

static void on_nodes(struct input *in, uint8_t op, bool weigh)
{
    struct plcn_due_answer *due = ANSWER(plcn_due_answer);
    struct plcn_bitmap *bits = ANSWER(plcn_bitmap);
    struct plcn_head *head = world.head;
    struct plcn_run *run = world.run;
    uint8_t node = byte(in) % 4 ? byte(in) % 40 : byte(in);
    uint64_t time = number(in);
    switch (op % 5) {
    case 0:
        look_behind(weigh ? plcn_weigh_heard(world.weigh, world.memory, node, time)
                          : plcn_heard(head, run, node, time));
        break;
    case 1:
        look_behind(weigh ? plcn_weigh_add(world.weigh, world.memory, node, time)
                          : plcn_add(head, run, node, time));
        break;
    case 2:
        look_behind(weigh ? plcn_weigh_remove(world.weigh, world.memory, node)
                          : plcn_remove(head, run, node));
        break;
    case 3:
        want(weigh ? plcn_weigh_next_due(world.weigh, world.memory, due)
                   : plcn_next_due(head, run, due),
             due->there <= 1 && (due->there || due->time_us == 0));
        break;
    default:
        want(plcn_bitmap(weigh ? &world.memory->run : run, bits),
             bits->nodes <= PLCN_WATCHED_PLACES);
    }
}

static void on_places(struct input *in, uint8_t op)
{
    struct plcn_errors *logged = ANSWER(plcn_errors);
    struct plcn_due_answer *due = ANSWER(plcn_due_answer);
    struct plcn_bitmap *bits = ANSWER(plcn_bitmap);
    struct plcn_head *head = world.head;
    uint64_t length = byte(in) % 4 ? PLCN_WATCHED_PLACES : byte(in) % (PLACES_MOST + 1);
    /* The places that are lent end where their pages end. */
    struct plcn_watched *places = world.places + PLACES_MOST - length;
    uint64_t *watched = world.number, time = number(in);
    uint8_t node = byte(in);
    switch (op % 6) {
    case 0: look_behind(plcn_heard_over(head, places, length, *watched, node, time)); break;
    case 1: look_behind(plcn_add_over(head, places, length, watched, node, time)); break;
    case 2: look_behind(plcn_remove_over(head, places, length, watched, node)); break;
    case 3: want(plcn_next_due_over(head, places, length, *watched, due), due->there <= 1); break;
    case 4:
        want(plcn_bitmap_over(places, length, *watched, bits), bits->nodes <= PLCN_WATCHED_PLACES);
        break;
    default:
        want(plcn_tick_over(head, world.queue, world.history, places, length, *watched, time,
                            logged),
             are_errors(logged));
    }
}

static void on_memories(struct input *in, uint8_t op, bool weigh)
{
    struct plcn_handed_out *entry = ANSWER(plcn_handed_out);
    struct plcn_update values;
    uint64_t index = number(in), length;
    switch (op % 5) {
    case 0:
        want(weigh ? plcn_weigh_hand_out(world.weigh, world.memory, entry)
                   : plcn_hand_out(world.head, world.queue, entry),
             is_handed_out(entry));
        break;
    case 1:
        want(plcn_queue_entry(world.head, world.queue, index, entry), is_handed_out(entry));
        break;
    case 2:
        want(plcn_history_entry(world.head, world.history, index, entry), is_handed_out(entry));
        break;
    case 3:
        look_behind(weigh ? plcn_weigh_withdraw(world.weigh, world.memory)
                          : plcn_withdraw(world.head));
        break;
    default: {
        values = update(in);
        const uint8_t *bytes = frame(in, world.frame_end, &length);
        look_behind(weigh ? plcn_weigh_load(world.weigh, world.memory, &values, bytes, length)
                          : plcn_load(world.head, world.history, &values, bytes, length));
    }
    }
}

static void on_frame(struct input *in, bool weigh)
{
    struct plcn_frame_answer *answer = ANSWER(plcn_frame_answer);
    uint64_t time = number(in), length;
    const uint8_t *bytes = frame(in, world.frame_end, &length);
    struct plcn_frame read;
    uint32_t wanted = read_frame(bytes, length, &read);
    if (wanted == PLCN_OK && time > PLCN_LATEST_TIME)
        wanted = PLCN_REFUSED_TIME_LIMIT;
    uint32_t refused =
        weigh ? plcn_weigh_frame(world.weigh, world.memory, time, bytes, length, answer)
              : plcn_frame(world.head, world.queue, world.history, time, bytes, length, answer);
    want(refused, is_frame_answer(answer));
    frames++;
    if (refused != wanted)
        fail("a frame is refused by another number than its bytes give");
}

/* Reads a frame, and each of its ends that begins with its EtherType's place. */
static void on_reading(struct input *in)
{
    struct plcn_frame *answer = ANSWER(plcn_frame);
    struct plcn_frame wanted;
    uint64_t length;
    const uint8_t *bytes = frame(in, world.frame_end, &length);
    for (uint64_t from = 0; from <= length && from < 64; from++) {
        struct plcn_frame before = *answer;
        const uint8_t *at = bytes ? bytes + from : NULL;
        uint32_t refused = plcn_frame_read(at, length - from, answer);
        frames++;
        if (refused != read_frame(at, length - from, &wanted))
            fail("a frame is refused by another number than its bytes give");
        if (memcmp(answer, refused == PLCN_OK ? &wanted : &before, sizeof wanted) != 0)
            fail("a frame is not read as its bytes are");
    }
    look_behind(PLCN_OK);
}

static void on_recipe(struct input *in, uint8_t op)
{
    struct plcn_component given[24];
    struct plcn_component *places = answer_of(sizeof *places * PLCN_RECIPE_PLACES);
    struct plcn_head *head = ANSWER(plcn_head);
    uint16_t *grams = answer_of(sizeof *grams);
    uint64_t count = byte(in) % 24;
    switch (op % 4) {
    case 0:
        for (uint64_t i = 0; i < count; i++) {
            given[i].bin = byte(in) % 80;
            given[i].grams = (uint16_t)wide(in, 2);
        }
        look_behind(plcn_weigh_load_recipe(world.weigh, world.memory, given, count));
        break;
    case 1:
        want(plcn_weigh_weight(world.weigh, number(in), grams),
             !world.is_weigh_started || (*grams >= 1 && *grams <= 30000));
        break;
    case 2: look_behind(plcn_weigh_places(world.weigh, places)); break;
    default:
        want(plcn_weigh_head(world.weigh, head),
             !world.is_weigh_started || wrong_in_head(head) == NULL);
    }
}

/* Whether a text has a 0 behind its characters, and those are ASCII. */
static bool is_text(const struct plcn_text *text)
{
    const char *end = memchr(text->text, 0, sizeof text->text);
    for (const char *at = text->text; end && at < end; at++) {
        if (*at < ' ' || *at > '~')
            return false;
    }
    return end != NULL;
}

static void on_texts(uint32_t n)
{
    struct plcn_text texts[] = {plcn_refusal_text(n), plcn_state_name(n),     plcn_event_name(n),
                                plcn_command_name(n), plcn_dll_event_name(n), plcn_kind_name(n)};
    for (unsigned i = 0; i < sizeof texts / sizeof texts[0]; i++)
        want(PLCN_OK, is_text(&texts[i]));
}

static void on_numbers(struct input *in, uint8_t op)
{
    struct plcn_entry *entry = ANSWER(plcn_entry);
    struct plcn_reset_steps *steps = ANSWER(plcn_reset_steps);
    uint8_t *read = answer_of(sizeof *read);
    struct plcn_entry given = {.mode = byte(in) % 5, .profile = (uint16_t)wide(in, 2)};
    uint64_t n = number(in), length = byte(in) % (BUFFER + 1);
    uint8_t *buffer = world.buffer + BUFFER - length;
    switch (op % 7) {
    case 6: on_texts((uint32_t)n); break;
    case 0: want(plcn_read_state(n, read), *read == n); break;
    case 1: want(plcn_read_command(n, read), *read == n); break;
    case 2: want(plcn_read_code(n, read), *read <= PLCN_KIND_HEARTBEAT_TIMEOUT); break;
    case 3: look_behind(plcn_entry_write(buffer, length, n, &given)); break;
    case 4:
        want(plcn_entry_read(buffer, length, n, entry), entry->mode <= 3 && entry->profile <= 4095);
        break;
    default: want(plcn_reset_steps((uint32_t)n, steps), steps->states <= 5 && steps->ranges <= 3);
    }
}

/* The owner writes the run, or bytes of a head, which is no started one then. */
static void scribble(struct input *in, uint8_t op)
{
    uint64_t place = byte(in) % PLCN_WATCHED_PLACES, count = byte(in) % 36;
    struct plcn_watched record = {byte(in), number(in), number(in)};
    switch (op % 4) {
    case 0:
        world.run->place[place] = record;
        world.run->number = count;
        break;
    case 1:
        world.memory->run.place[place] = record;
        world.memory->run.number = count;
        break;
    case 2:
        world.places[byte(in) % PLACES_MOST] = record;
        *world.number = number(in);
        break;
    default:
        ((uint8_t *)world.head)[byte(in) % sizeof *world.head] = byte(in);
        world.is_started = false;
    }
}

static void start(struct input *in, uint8_t op)
{
    struct plcn_setup given = setup(in);
    uint32_t refused;
    if (op % 3 == 0)
        refused = plcn_start(world.head, world.run, &given);
    else if (op % 3 == 1)
        refused = plcn_start_over(world.head, world.places + PLACES_MOST - PLCN_WATCHED_PLACES,
                                  PLCN_WATCHED_PLACES, *world.number, &given);
    else
        refused = plcn_weigh_start(world.weigh, world.memory, &given);
    look_behind(refused);
    world.is_started |= refused == PLCN_OK && op % 3 != 2;
    world.is_weigh_started |= refused == PLCN_OK && op % 3 == 2;
}

/* Some of the events that lead from a reset to Operational. */
static void walk(struct input *in, bool weigh)
{
    static const uint8_t way[] = {PLCN_EVENT_SW_RESET,
                                  PLCN_EVENT_SOC_RECEIVED,
                                  PLCN_EVENT_SOC_RECEIVED,
                                  PLCN_EVENT_CN_CONFIGURATION_COMPLETE,
                                  PLCN_EVENT_ENABLE_READY_TO_OPERATE,
                                  PLCN_EVENT_START_NODE};
    struct plcn_nmt_answer *nmt = ANSWER(plcn_nmt_answer);
    unsigned steps = byte(in) % (sizeof way + 1);
    for (unsigned i = 0; i < steps; i++) {
        want(weigh ? plcn_weigh_nmt_event(world.weigh, world.memory, way[i], nmt)
                   : plcn_nmt_event(world.head, way[i], nmt),
             is_nmt_answer(nmt));
    }
}

static void call(struct input *in)
{
    uint8_t which = byte(in), op = byte(in);
    bool weigh = op & 128;
    switch (which % 13) {
    case 0: start(in, op); break;
    case 12: walk(in, weigh); break;
    case 1: on_machines(in, op, weigh); break;
    case 2: on_clock(in, op, weigh); break;
    case 3: on_nodes(in, op, weigh); break;
    case 4: on_places(in, op); break;
    case 5: on_memories(in, op, weigh); break;
    case 6: on_recipe(in, op); break;
    case 7: on_numbers(in, op); break;
    case 8: scribble(in, op); break;
    case 9:
    case 10: on_frame(in, weigh); break;
    default: on_reading(in);
    }
}

/* ---- libFuzzer ---- */

static void tell_counts(void)
{
    printf("fuzz: %" PRIu64 " calls, %" PRIu64 " of them taken; %" PRIu64 " frames read\n", calls,
           taken, frames);
}

static void *lend(unsigned place, size_t size)
{
    lent[place].at = guarded(size);
    lent[place].size = size;
    return lent[place].at;
}

int LLVMFuzzerInitialize(int *count, char ***words);
int LLVMFuzzerTestOneInput(const uint8_t *data, size_t size);

int LLVMFuzzerInitialize(int *count, char ***words)
{
    (void)count;
    (void)words;
    world.head = lend(0, sizeof *world.head);
    world.run = lend(1, sizeof *world.run);
    world.places = lend(2, sizeof *world.places * PLACES_MOST);
    world.number = lend(3, sizeof *world.number);
    world.queue = lend(4, sizeof *world.queue);
    world.history = lend(5, sizeof *world.history);
    world.weigh = lend(6, sizeof *world.weigh);
    world.memory = lend(7, sizeof *world.memory);
    world.buffer = lend(8, BUFFER);
    lend(LENT - 1, sizeof(union answer));
    world.frame_end = (uint8_t *)guarded(FRAME_MOST) + FRAME_MOST;
    atexit(tell_counts);
    return 0;
}

int LLVMFuzzerTestOneInput(const uint8_t *data, size_t size)
{
    struct input input = {data, size};
    uint8_t fill = byte(&input);
    for (unsigned i = 0; i < LENT; i++)
        memset(lent[i].at, fill & 1 ? fill : 0, lent[i].size);
    *world.number = 0;
    world.run->number = world.memory->run.number = 0;
    world.is_started = world.is_weigh_started = false;
    while (input.left > 0) {
        note_before();
        call(&input);
        const char *wrong = world.is_started ? wrong_in_head(world.head) : NULL;
        if (wrong)
            fail(wrong);
    }
    return 0;
}
