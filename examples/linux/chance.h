/* Numbers by chance, the same from the same seed. */
#ifndef CHANCE_H
#define CHANCE_H

#include <stdint.h>

/* The next number (splitmix64). */
static inline uint64_t by_chance(uint64_t *seed)
{
    uint64_t number = *seed += 0x9e3779b97f4a7c15;
    number = (number ^ number >> 30) * 0xbf58476d1ce4e5b9;
    number = (number ^ number >> 27) * 0x94d049bb133111eb;
    return number ^ number >> 31;
}

#endif
