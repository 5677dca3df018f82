/* Only includes the headers, to compile them as C89 and C++. This file is not run. */
#include "lapd.h"
#include "lapd_line.h"

lapd_side side = LAPD_SIDE_INIT;
lapd_settings basic = LAPD_BASIC;
lapd_settings primary = LAPD_PRIMARY;

/* A result is a uint32_t, also for a pointer to a call. */
uint32_t (*ask_tei)(lapd_side *, uint64_t) = lapd_side_ask_tei;
