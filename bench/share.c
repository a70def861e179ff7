/* Shares, by the library's function (bench/share builds it from crates/whole) and by verdict.c's. */
#include "verdict.c"

#include <stdio.h>

int64_t library_share(int64_t x, int64_t f);
int64_t c_share(int64_t x, int64_t f);

__attribute__((noinline)) int64_t c_share(int64_t x, int64_t f)
{
    return share(x, f);
}

/* Reads pairs of an amount and a factor, and writes of each the library's share and C's; all are 8 bytes, as the machine has them. */
int main(void)
{
    int64_t given[2];
    while (fread(given, sizeof given, 1, stdin) == 1) {
        const int64_t shares[2] = {library_share(given[0], given[1]), c_share(given[0], given[1])};
        if (fwrite(shares, sizeof shares, 1, stdout) != 1)
            return 1;
    }
    return fflush(stdout) != 0;
}
