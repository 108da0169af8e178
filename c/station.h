/*
 * A head and a weigh head that a script plays side by side, with what is lent to them.
 */
#ifndef STATION_H
#define STATION_H

#include "script.h"

struct station {
    bool is_started; /* whether a start was taken: before that no line reaches the heads */
    bool over;       /* whether all calls on the head go through the functions plcn_.._over */
    struct plcn_head head;
    struct plcn_queue queue;
    struct plcn_history history;
    struct plcn_watched places[RUN_PLACES];
    uint64_t lent;    /* how many of the places are lent */
    uint64_t watched; /* how many nodes are watched */
    struct plcn_weigh weigh;
    struct plcn_memory memory;
    uint8_t desk[DESK_BYTES];
    uint64_t desk_length;
};

/* What a line is answered: nothing of it is there where it is refused. */
struct answer {
    uint32_t refused; /* the number of the refusal; 0: it was taken */
    struct plcn_nmt_answer nmt;
    struct plcn_errors errors; /* of a DLL event, and what a tick logged */
    struct plcn_error_answer error;
    struct plcn_cycle_answer cycle;
    struct plcn_handed_out handed_out;
    struct plcn_range_answer range;
    struct plcn_margin_answer margin;
    struct plcn_due_answer due;
    struct plcn_frame_answer frame;
    struct plcn_bitmap bitmap;
    struct plcn_entry entry;
    uint16_t grams;
    uint8_t number; /* of a state, a command or a kind */
};

/* What playing a line comes to. */
enum played {
    PLAYED_NOTHING,    /* it prints nothing */
    PLAYED_UNREADABLE, /* it can't be read, or can't be played where it stands */
    PLAYED_ANSWER,     /* it is answered */
    PLAYED_SHOW,       /* the station is to be shown */
    PLAYED_WHY         /* it is to be told why the NMT machine is where it is */
};

/* A station on which nothing was started, watched or lent. */
void new_station(struct station *station, bool over);

/* Plays a line. Where head and weigh head do not come to the same, differ says in what; else it is
   a null pointer. */
enum played play_line(struct station *station, const struct line *line, struct answer *answer,
                      const char **differ);

#endif
