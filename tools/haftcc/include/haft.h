/* What a program has of haft: numbers out, and numbers in. tools/haft-cc finds this file by itself. */
#ifndef HAFT_H
#define HAFT_H

#include <stdint.h>

/* Puts a number out: the line `out N` of a report, N read as a number without a sign. */
void haft_out(uint64_t number);

/* The number at this place, from 0, of the schedule's `args` line; 0 past the last. */
uint64_t haft_arg(uint64_t place);

#endif
