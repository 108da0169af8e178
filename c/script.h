/*
 * A line of a call script as the value that it says. docs/CALLS.md has the format.
 */
#ifndef SCRIPT_H
#define SCRIPT_H

#include "powerlink_cn.h"
#include <stdbool.h>

/* The most characters of a line that is no comment. */
#define LINE_LONGEST 16384
/* The most bytes that a line gives: those of the 300 entries that a load may name. */
#define LINE_BYTES 6000
/* The most components that a line gives: more than a recipe may have. */
#define LINE_COMPONENTS 20
/* The most bytes of a desk. */
#define DESK_BYTES 100
/* The most places of a run that a script lends. */
#define RUN_PLACES 40

/* What a line is. */
enum line_kind {
    LINE_NOTHING, /* an empty line, or a comment */
    LINE_UNREADABLE,
    LINE_START,
    LINE_NMT,
    LINE_DLL,
    LINE_ERROR,
    LINE_CYCLE,
    LINE_WITHDRAW,
    LINE_HEARD,
    LINE_HANDOUT,
    LINE_LOAD,
    LINE_ARM,
    LINE_TICK,
    LINE_RANGE,
    LINE_MARGIN,
    LINE_ADD,
    LINE_REMOVE,
    LINE_DUE,
    LINE_FRAME,
    LINE_RECIPE,
    LINE_WEIGHT,
    LINE_BITMAP,
    LINE_STATE,
    LINE_COMMAND,
    LINE_CODE,
    LINE_ENTRYWRITE,
    LINE_ENTRYREAD,
    LINE_WATCH,
    LINE_UNWATCH,
    LINE_LEND,
    LINE_DESK,
    LINE_SHOW,
    LINE_WHY
};

/* A line. Of the fields those have a value that its kind has words for. */
struct line {
    enum line_kind kind;
    uint64_t number; /* the event, kind, state, command, code, place of a weight or an entry */
    uint8_t a;       /* what an error carries */
    uint8_t b;
    uint32_t expect_preq; /* of a DLL event */
    uint8_t node;         /* of heard, add and remove */
    uint64_t time_us;     /* a time, the earliest of a range, a timeout */
    uint64_t latest_us;   /* the latest of a range */
    uint64_t places;      /* of a run that is lent */
    uint64_t watched;     /* how many of them are watched */
    struct plcn_setup setup;
    struct plcn_update update;
    struct plcn_entry entry;
    struct plcn_watched record; /* of watch */
    struct plcn_component components[LINE_COMPONENTS];
    uint64_t component_number;
    uint8_t bytes[LINE_BYTES]; /* of a history, a frame, a desk, an entry */
    uint64_t length;
};

/* Reads a line of so many characters, which has no newline at its end. */
void read_line(const char *text, size_t length, struct line *line);

#endif
