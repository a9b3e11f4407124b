/* Random numbers for the comparisons in C: splitmix64. A comparison sets the state to its seed. */
#ifndef SPLITMIX64_H
#define SPLITMIX64_H

#include <stdint.h>

static uint64_t state;

static uint64_t next(void)
{
    uint64_t z = state += UINT64_C(0x9e3779b97f4a7c15);
    z = (z ^ z >> 30) * UINT64_C(0xbf58476d1ce4e5b9);
    z = (z ^ z >> 27) * UINT64_C(0x94d049bb133111eb);
    return z ^ z >> 31;
}

#endif
