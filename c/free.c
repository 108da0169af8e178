/*
 * The library with no C library below it: linked by -nostdlib -ffreestanding -static, with a start
 * of its own. It starts a head and a weigh head, makes calls on them, and ends with status 42 where
 * all of them answered as they should. For Linux on x86-64.
 */
#include "powerlink_cn.h"

/* What the archive may call, and nothing else. */
void *memcpy(void *restrict to, const void *restrict from, size_t length);
void *memmove(void *to, const void *from, size_t length);
void *memset(void *to, int value, size_t length);

void *memcpy(void *restrict to, const void *restrict from, size_t length)
{
    return memmove(to, from, length);
}

void *memmove(void *to, const void *from, size_t length)
{
    unsigned char *t = to;
    const unsigned char *f = from;
    for (size_t i = 0; i < length; i++) {
        size_t at = t < f ? i : length - 1 - i;
        t[at] = f[at];
    }
    return to;
}

void *memset(void *to, int value, size_t length)
{
    unsigned char *t = to;
    for (size_t i = 0; i < length; i++)
        t[i] = (unsigned char)value;
    return to;
}

static _Noreturn void leave(int status)
{
    for (;;)
        __asm__ volatile("syscall" : : "a"(60L), "D"((long)status) : "rcx", "r11", "memory");
}

/* A head is started, reset, heard of an SoC and ticked. */
static int on_head(void)
{
    static struct plcn_head head;
    static struct plcn_run run;
    static struct plcn_queue queue;
    static struct plcn_history history;
    struct plcn_setup setup = {.node = 7, .cycle_us = {1, 1000}, .queue_capacity = 32};
    struct plcn_nmt_answer nmt;
    struct plcn_errors logged;
    return plcn_start(&head, &run, &setup) == PLCN_OK &&
           plcn_add(&head, &run, 17, 5000) == PLCN_OK &&
           plcn_nmt_event(&head, PLCN_EVENT_SW_RESET, &nmt) == PLCN_OK &&
           plcn_nmt_event(&head, PLCN_EVENT_SOC_RECEIVED, &nmt) == PLCN_OK &&
           plcn_arm(&head, 1000) == PLCN_OK &&
           plcn_tick(&head, &queue, &history, &run, 1500, &logged) == PLCN_OK &&
           plcn_remove(&head, &run, 17) == PLCN_OK && head.state == PLCN_STATE_PRE_OPERATIONAL_1 &&
           plcn_time(head.last_soc) == 1000;
}

/* A weigh head gets a recipe where it is taken, and tells no weight before Operational. */
static int on_weigh(void)
{
    static struct plcn_weigh weigh;
    static struct plcn_memory memory;
    struct plcn_setup setup = {.node = 7, .queue_capacity = 32};
    struct plcn_component recipe = {3, 1200};
    struct plcn_text name = plcn_state_name(PLCN_STATE_OPERATIONAL);
    uint16_t grams = 9;
    return plcn_weigh_start(&weigh, &memory, &setup) == PLCN_OK &&
           plcn_weigh_load_recipe(&weigh, &memory, &recipe, 1) ==
               PLCN_REFUSED_NOT_PREOPERATIONAL2 &&
           plcn_weigh_weight(&weigh, 0, &grams) == PLCN_REFUSED_NO_WEIGHT && grams == 9 &&
           name.text[0] == 'O' && plcn_version() == PLCN_VERSION;
}

void _start(void);

/* The stack is aligned to 16 bytes, as the library's code wants it. */
__attribute__((force_align_arg_pointer)) void _start(void)
{
    leave(on_head() && on_weigh() ? 42 : 1);
}
