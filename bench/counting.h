// Counts the instructions executed between COUNT_ON and COUNT_OFF. COUNTED_AS ends a measurement, under its name.
//
// Under valgrind these are requests to it, and each measurement is a dump of its own. With BY_STEPS the program counts for itself:
// the processor's trap flag raises a signal after every instruction, and a measurement is a line with the number of signals. That is
// slow, but it needs nothing around the program, and an emulator keeps to it as a processor does.
#ifndef COUNTING_H
#define COUNTING_H

#ifdef BY_STEPS
#include "trap.h"
#include <signal.h>
#include <stdint.h>
#include <stdio.h>

static volatile uint64_t steps;

static void one_step(int signal) {
    (void)signal;
    steps++;
}

#define COUNT_FROM_HERE signal(SIGTRAP, one_step)
#define COUNT_ON TRAP_ON
#define COUNT_OFF TRAP_OFF
#define COUNTED_AS(text) (printf("%s | %llu\n", text, (unsigned long long)steps), steps = 0)
#else
#include <valgrind/callgrind.h>

#define COUNT_FROM_HERE CALLGRIND_ZERO_STATS
#define COUNT_ON CALLGRIND_TOGGLE_COLLECT
#define COUNT_OFF CALLGRIND_TOGGLE_COLLECT
#define COUNTED_AS(text) CALLGRIND_DUMP_STATS_AT(text)
#endif
#endif
