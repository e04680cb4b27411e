// The calls of one of the two libraries, by one set of names: of the plain pool and bank, or with -DPROVED of the proved ones, which
// with -DPOOL_ALONE have no bank.
#ifndef CALLS_H
#define CALLS_H
#ifdef PROVED
#include "../include/pool.h"
#ifndef POOL_ALONE
#include "../include/bank.h"
#endif
#define CALL(name) pool_##name
#define BANK(name) bank_##name
#else
#include "plain.h"
#define CALL(name) plain_##name
#define BANK(name) plain_bank_##name
#endif
#endif
