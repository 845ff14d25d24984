/* What a run of the rivals in C hands back: the flag as 0 or 1. */
#ifndef ENDED_H
#define ENDED_H

#include "zpu.h"

static zpu_end ended(uint32_t outcome, uint32_t steps, zpu_state state)
{
    zpu_end end;

    end.outcome = outcome;
    end.steps = steps;
    end.state = state;
    end.state.flag = state.flag != 0;
    return end;
}

#endif
