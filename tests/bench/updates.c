/* The updates as one would write them in C, and a driver: `updates SIDE CODE INDEX STEP` prints what one side answers. */
#include <stdint.h>
#include <stdio.h>
#include <stdlib.h>

uint32_t r_update(uint32_t code, uint32_t index, uint32_t step);

__attribute__((noinline)) uint32_t c_update(uint32_t code, uint32_t index, uint32_t step)
{
    switch (code) {
    case 0: return index + step;
    case 1: return index - step;
    case 2: return index * step;
    case 3: return step == 0 ? 0 : step == UINT32_MAX ? 0 - index : (uint32_t)((int32_t)index / (int32_t)step);
    case 4: return step < 32 ? index << step : 0;
    case 5: return (uint32_t)((int32_t)index >> (step < 32 ? step : 31));
    default: return 0;
    }
}

int main(int count, char **words)
{
    if (count != 5) return 2;
    uint32_t code = strtoul(words[2], 0, 10), index = strtoul(words[3], 0, 10), step = strtoul(words[4], 0, 10);
    printf("%u\n", words[1][0] == 'c' ? c_update(code, index, step) : r_update(code, index, step));
    return 0;
}
