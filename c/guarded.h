/*
 * Memory that ends where a page begins that nobody may touch: code that reads or writes past it is
 * stopped, also code that was built without a sanitizer. Before it stand marks.
 */
#ifndef GUARDED_H
#define GUARDED_H

#include <stdbool.h>
#include <stddef.h>

/* So many bytes, which end at the forbidden page; ends the program where there is no memory. */
void *guarded(size_t size);

/* Whether the marks before such memory are as they were. */
bool guarded_is_whole(const void *at);

#endif
