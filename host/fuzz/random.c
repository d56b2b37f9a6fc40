#include "random.h"

/* The splitmix64 sequence. */
static uint64_t state;

void set_seed(uint64_t seed)
{
    state = seed;
}

uint64_t draw(void)
{
    uint64_t z = state += 0x9e3779b97f4a7c15u;
    z = (z ^ (z >> 30)) * 0xbf58476d1ce4e5b9u;
    z = (z ^ (z >> 27)) * 0x94d049bb133111ebu;
    return z ^ (z >> 31);
}

size_t below(size_t limit)
{
    return (size_t)(draw() % limit);
}

int chance(unsigned percent)
{
    return below(100) < percent;
}

size_t near(size_t len)
{
    switch (below(8)) {
    case 0:
        return len ? len - 1 : 0;
    case 1:
        return below(len + 1);
    case 2:
        return len + below(10);
    default:
        return len;
    }
}

uint64_t over_a_byte(void)
{
    return PICK(256, 257, 300, (uint64_t)1 << 32, ((uint64_t)1 << 32) + 1, UINT64_MAX - 1, UINT64_MAX);
}
