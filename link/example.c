#include <inttypes.h>
#include <stdio.h>
#include <gatulefo.h>

int main(void) {
    gatulefo_v128 a = gatulefo_i8x16_splat(100);
    gatulefo_v128 sum = gatulefo_i8x16_add_sat_s(a, a);
    uint8_t memory[16] = {0};
    gatulefo_loaded loaded = gatulefo_v128_load(memory, sizeof memory, 1, 0);
    printf("%016" PRIx64 "%016" PRIx64 ", refused %d by %" PRIu64 "\n", sum.hi, sum.lo, loaded.refused, loaded.shortfall);
    return 0;
}
