/*
 * What is printed of a station and of what a line was answered (docs/CALLS.md).
 */
#ifndef TELLING_H
#define TELLING_H

#include "station.h"
#include <stdio.h>

/* Prints what a line was answered. */
void tell_answer(FILE *out, enum line_kind kind, const struct answer *answer);

/* Prints the heads, the run and the desk. */
void tell_station(FILE *out, const struct station *station);

/* Prints why the NMT machine is in its state, and what moves it from there. */
void tell_why(FILE *out, const struct plcn_head *head);

#endif
