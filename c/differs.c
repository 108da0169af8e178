/*
 * A library whose weigh head takes plcn_weigh_arm without doing it, for the test that play tells of
 * a weigh head that does other than the head. It is linked by -Wl,--wrap=plcn_weigh_arm.
 */
#include "powerlink_cn.h"

uint32_t __wrap_plcn_weigh_arm(struct plcn_weigh *weigh, struct plcn_memory *memory,
                               uint64_t time_us);

uint32_t __wrap_plcn_weigh_arm(struct plcn_weigh *weigh, struct plcn_memory *memory,
                               uint64_t time_us)
{
    (void)weigh;
    (void)memory;
    (void)time_us;
    return PLCN_OK;
}
