/* As many array accesses as memory_bench makes loads and stores, in the same order of places: bench/memory.sh
   compares with it. */
#include <stdio.h>
#include <stdlib.h>
#include <string.h>

static int objects[1000][16];

int main(int argc, char **argv) {
    unsigned long long count = argc > 2 ? strtoull(argv[2], NULL, 10) : 0, seed = 1, sum = 0;
    for (unsigned long long i = 0; i < count; i++) {
        seed = seed * 6364136223846793005ULL + 1442695040888963407ULL;
        unsigned high = (unsigned)(seed >> 33);
        *(volatile int *)&objects[high % 1000][(high >> 16) % 16] = (int)(unsigned)(seed >> 40);
        seed = seed * 6364136223846793005ULL + 1442695040888963407ULL;
        high = (unsigned)(seed >> 33);
        sum += (unsigned)*(volatile int *)&objects[high % 1000][(high >> 16) % 16];
    }
    printf("%llu\n", sum);
    return 0;
}
