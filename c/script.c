#include "script.h"
#include "words.h"

#include <string.h>

/* ---- Bytes ---- */

/* Adds the bytes whose digits a text is. */
static void add_bytes(struct words *words, struct text text, struct line *line)
{
    if (text.length % 2 != 0)
        words->failed = true;
    for (size_t i = 0; i + 1 < text.length && !words->failed; i += 2) {
        unsigned high = digit(text.at[i]), low = digit(text.at[i + 1]);
        if (high > 15 || low > 15 || line->length >= LINE_BYTES) {
            words->failed = true;
            return;
        }
        line->bytes[line->length++] = (uint8_t)(16 * high + low);
    }
}

/* At most so many bytes; `-` for none. */
static void bytes(struct words *words, size_t most, struct line *line)
{
    struct text next = word(words);
    if (is(next, "-"))
        return;
    if (next.length == 0 || next.length / 2 > most)
        words->failed = true;
    add_bytes(words, next, line);
}

/* ---- A start ---- */

static struct plcn_thresholds same_for_all(uint32_t threshold)
{
    struct plcn_thresholds all = {threshold, threshold, threshold, threshold,
                                  threshold, threshold, threshold};
    return all;
}

static struct plcn_thresholds thresholds(struct words *words)
{
    struct plcn_thresholds given = same_for_all(15);
    if (words->left == 0)
        return given;
    given.collision = bits32(words);
    given.loss_of_soc = bits32(words);
    given.loss_of_soa = bits32(words);
    given.loss_of_preq = bits32(words);
    given.soc_jitter = bits32(words);
    given.crc_errors = bits32(words);
    given.heartbeat_timeout = bits32(words);
    return given;
}

static void setup_by_place(struct words *words, struct plcn_setup *setup)
{
    setup->node = bits8(words);
    setup->feature_flags = bits32(words);
    setup->basic_timeout_us = bits32(words);
    setup->queue_capacity = bits64(words);
    setup->error_register = bits8(words);
    setup->cycle_us = object(words);
    setup->tolerance_ns = object(words);
    setup->counter_1 = bits32(words);
    setup->counter_2 = bits32(words);
    setup->counter_3 = bits32(words);
    setup->counter_5 = bits32(words);
    setup->thresholds = thresholds(words);
}

/* A key of a start with the words that are not read yet. */
static bool behind_key(struct text word, const char *key, struct text *value)
{
    size_t length = strlen(key);
    if (word.length <= length || memcmp(word.at, key, length) != 0 || word.at[length] != '=')
        return false;
    value->at = word.at + length + 1;
    value->length = word.length - length - 1;
    return true;
}

/* The numbers of a start that have a key, by key: the most that each may be, and where it goes. */
struct keyed {
    const char *key;
    uint64_t most;
    uint64_t *number;
    bool is_given;
};

/* One word of a start by keys; whether it has a key that no word before it had. */
static bool read_keyed(struct text word, struct keyed *keys, size_t count)
{
    struct text value = {NULL, 0};
    for (size_t i = 0; i < count; i++) {
        if (!behind_key(word, keys[i].key, &value))
            continue;
        bool is_new = !keys[i].is_given;
        keys[i].is_given = true;
        return is_new && number_of(value, keys[i].most, keys[i].number);
    }
    return false;
}

/* The same for cycle and tolerance, which may be `-`. */
static bool read_object(struct text word, const char *key, bool *is_given,
                        struct plcn_value *object)
{
    struct text value = {NULL, 0};
    uint64_t number = 0;
    if (*is_given || !behind_key(word, key, &value))
        return false;
    *is_given = true;
    if (is(value, "-"))
        return true;
    object->there = 1;
    bool is_number = number_of(value, UINT32_MAX, &number);
    object->value = (uint32_t)number;
    return is_number;
}

enum { NODE, FLAGS, TIMEOUT, QUEUE, REGISTER, C1, C2, C3, C5, T1, T2, T3, T4, T5, T6, T7, KEYS };

/* The numbers of a start by keys, as they are put where they belong. */
static void set_numbers(struct plcn_setup *setup, const uint64_t n[KEYS])
{
    setup->node = (uint8_t)n[NODE];
    setup->feature_flags = (uint32_t)n[FLAGS];
    setup->basic_timeout_us = (uint32_t)n[TIMEOUT];
    setup->queue_capacity = n[QUEUE];
    setup->error_register = (uint8_t)n[REGISTER];
    setup->counter_1 = (uint32_t)n[C1];
    setup->counter_2 = (uint32_t)n[C2];
    setup->counter_3 = (uint32_t)n[C3];
    setup->counter_5 = (uint32_t)n[C5];
    setup->thresholds.collision = (uint32_t)n[T1];
    setup->thresholds.loss_of_soc = (uint32_t)n[T2];
    setup->thresholds.loss_of_soa = (uint32_t)n[T3];
    setup->thresholds.loss_of_preq = (uint32_t)n[T4];
    setup->thresholds.soc_jitter = (uint32_t)n[T5];
    setup->thresholds.crc_errors = (uint32_t)n[T6];
    setup->thresholds.heartbeat_timeout = (uint32_t)n[T7];
}

static void setup_by_keys(struct words *words, struct plcn_setup *setup)
{
    static const char *const names[KEYS] = {
        "node",         "flags",      "timeout",     "queue",
        "register",     "c1",         "c2",          "c3",
        "c5",           "collision",  "loss_of_soc", "loss_of_soa",
        "loss_of_preq", "soc_jitter", "crc_errors",  "heartbeat_timeout"};
    uint64_t numbers[KEYS] = {0, 0, 0, 32, 0, 0, 0, 0, 0, 15, 15, 15, 15, 15, 15, 15};
    struct keyed keys[KEYS];
    for (size_t i = 0; i < KEYS; i++) {
        uint64_t most = i == QUEUE ? UINT64_MAX : i == NODE || i == REGISTER ? 255 : UINT32_MAX;
        keys[i] = (struct keyed){names[i], most, &numbers[i], false};
    }
    bool cycle = false, tolerance = false;
    while (words->left > 0 && !words->failed) {
        struct text next = word(words);
        if (!read_keyed(next, keys, KEYS) &&
            !read_object(next, "cycle", &cycle, &setup->cycle_us) &&
            !read_object(next, "tolerance", &tolerance, &setup->tolerance_ns))
            words->failed = true;
    }
    if (!keys[NODE].is_given)
        words->failed = true;
    set_numbers(setup, numbers);
}

static void read_start(struct words *words, struct line *line)
{
    if (words->left >= 2 && words->rest[1] >= '0' && words->rest[1] <= '9')
        setup_by_place(words, &line->setup);
    else
        setup_by_keys(words, &line->setup);
}

/* ---- The other lines ---- */

static void read_nothing(struct words *words, struct line *line)
{
    (void)words;
    (void)line;
}

static void read_nmt(struct words *words, struct line *line)
{
    line->number = numeral(words, plcn_event_name);
}

static void read_dll(struct words *words, struct line *line)
{
    line->number = numeral(words, plcn_dll_event_name);
    line->expect_preq = (uint32_t)up_to(words, 1);
}

/* Whether an error of a kind carries a byte. */
static bool carries(uint64_t kind)
{
    return kind == 9 || kind == 10 || kind == 12 || (kind >= 18 && kind <= 21);
}

/* A number that is a byte where it is looked at, and else of any size. */
static uint8_t carried(struct words *words, bool is_looked_at)
{
    uint64_t number = up_to(words, is_looked_at ? UINT8_MAX : UINT64_MAX);
    return is_looked_at ? (uint8_t)number : 0;
}

static void read_error(struct words *words, struct line *line)
{
    line->number = numeral(words, plcn_kind_name);
    line->a = carried(words, carries(line->number));
    line->b = carried(words, line->number == PLCN_KIND_UNEXPECTED_EVENT_IN_STATE);
}

static void read_node(struct words *words, struct line *line)
{
    line->node = bits8(words);
}

static void read_node_and_time(struct words *words, struct line *line)
{
    line->node = bits8(words);
    line->time_us = bits64(words);
}

static void read_time(struct words *words, struct line *line)
{
    line->time_us = bits64(words);
}

static void read_range(struct words *words, struct line *line)
{
    line->time_us = bits64(words);
    line->latest_us = bits64(words);
}

static void read_history(struct words *words, struct line *line)
{
    if (!take(words, "history"))
        return;
    line->update.set_history = 1;
    size_t entry = 1 + 2 * PLCN_ENTRY_BYTES;
    if (words->left % entry != 0 || words->left / entry > 300)
        words->failed = true;
    while (words->left > 0 && !words->failed) {
        struct text next = word(words);
        if (next.length != entry - 1)
            words->failed = true;
        add_bytes(words, next, line);
    }
}

/* Whether a load names a value, which is noted. */
static bool names(struct words *words, const char *name, uint8_t *is_named)
{
    *is_named = take(words, name);
    return *is_named;
}

static void read_load(struct words *words, struct line *line)
{
    struct plcn_update *update = &line->update;
    if (names(words, "register", &update->set_error_register))
        update->error_register = bits8(words);
    if (names(words, "cycle", &update->set_cycle))
        update->cycle_us = object(words);
    if (names(words, "tolerance", &update->set_tolerance))
        update->tolerance_ns = object(words);
    if (names(words, "c1", &update->set_counter_1))
        update->counter_1 = bits32(words);
    if (names(words, "c2", &update->set_counter_2))
        update->counter_2 = bits32(words);
    if (names(words, "c3", &update->set_counter_3))
        update->counter_3 = bits32(words);
    if (names(words, "c5", &update->set_counter_5))
        update->counter_5 = bits32(words);
    read_history(words, line);
}

static void read_recipe(struct words *words, struct line *line)
{
    while (words->left > 0 && !words->failed) {
        if (line->component_number == LINE_COMPONENTS) {
            words->failed = true;
            return;
        }
        struct plcn_component *component = &line->components[line->component_number++];
        component->bin = bits8(words);
        component->grams = bits16(words);
    }
}

static void read_number(struct words *words, struct line *line)
{
    line->number = bits64(words);
}

static void read_frame(struct words *words, struct line *line)
{
    line->time_us = bits64(words);
    bytes(words, 1518, line);
}

static void read_state(struct words *words, struct line *line)
{
    line->number = numeral(words, plcn_state_name);
}

static void read_command(struct words *words, struct line *line)
{
    line->number = numeral(words, plcn_command_name);
}

static void read_watch(struct words *words, struct line *line)
{
    line->record.node = bits8(words);
    line->record.timeout_us = bits64(words);
    line->record.last_heard_us = bits64(words);
}

static void read_lend(struct words *words, struct line *line)
{
    line->places = up_to(words, RUN_PLACES);
    line->watched = bits64(words);
}

static void read_desk(struct words *words, struct line *line)
{
    bytes(words, DESK_BYTES, line);
}

static void read_entry_write(struct words *words, struct line *line)
{
    line->number = bits64(words);
    line->entry.is_status = (uint8_t)up_to(words, 1);
    line->entry.send_to_queue = (uint8_t)up_to(words, 1);
    line->entry.mode = (uint8_t)up_to(words, 3);
    line->entry.profile = bits16(words);
    line->entry.code = bits16(words);
    line->entry.seconds = bits32(words);
    line->entry.nanoseconds = bits32(words);
    line->entry.additional = bits64(words);
}

static void read_entry_read(struct words *words, struct line *line)
{
    bytes(words, PLCN_ENTRY_BYTES, line);
    if (line->length != PLCN_ENTRY_BYTES)
        words->failed = true;
}

/* The lines by their first words. */
static const struct {
    const char *name;
    enum line_kind kind;
    void (*read)(struct words *words, struct line *line);
} lines[] = {
    {"start", LINE_START, read_start},
    {"nmt", LINE_NMT, read_nmt},
    {"dll", LINE_DLL, read_dll},
    {"error", LINE_ERROR, read_error},
    {"cycle", LINE_CYCLE, read_nothing},
    {"withdraw", LINE_WITHDRAW, read_nothing},
    {"heard", LINE_HEARD, read_node_and_time},
    {"handout", LINE_HANDOUT, read_nothing},
    {"load", LINE_LOAD, read_load},
    {"arm", LINE_ARM, read_time},
    {"tick", LINE_TICK, read_time},
    {"range", LINE_RANGE, read_range},
    {"margin", LINE_MARGIN, read_time},
    {"add", LINE_ADD, read_node_and_time},
    {"remove", LINE_REMOVE, read_node},
    {"due", LINE_DUE, read_nothing},
    {"frame", LINE_FRAME, read_frame},
    {"recipe", LINE_RECIPE, read_recipe},
    {"weight", LINE_WEIGHT, read_number},
    {"bitmap", LINE_BITMAP, read_nothing},
    {"state", LINE_STATE, read_state},
    {"command", LINE_COMMAND, read_command},
    {"kind", LINE_CODE, read_number},
    {"entrywrite", LINE_ENTRYWRITE, read_entry_write},
    {"entryread", LINE_ENTRYREAD, read_entry_read},
    {"watch", LINE_WATCH, read_watch},
    {"unwatch", LINE_UNWATCH, read_nothing},
    {"lend", LINE_LEND, read_lend},
    {"desk", LINE_DESK, read_desk},
    {"show", LINE_SHOW, read_nothing},
    {"why", LINE_WHY, read_nothing},
};

/* What the words of a line say, where they are all there and no more. */
static enum line_kind read_words(const char *text, size_t length, struct line *line)
{
    struct text name = {text, word_length(text, length)};
    struct words words = {text + name.length, length - name.length, false};
    for (size_t i = 0; i < sizeof lines / sizeof lines[0]; i++) {
        if (is(name, lines[i].name)) {
            lines[i].read(&words, line);
            return words.failed || words.left > 0 ? LINE_UNREADABLE : lines[i].kind;
        }
    }
    return LINE_UNREADABLE;
}

void read_line(const char *text, size_t length, struct line *line)
{
    memset(line, 0, offsetof(struct line, bytes));
    line->length = 0;
    if (length == 0 || text[0] == '#')
        line->kind = LINE_NOTHING;
    else if (length > LINE_LONGEST)
        line->kind = LINE_UNREADABLE;
    else
        line->kind = read_words(text, length, line);
}
