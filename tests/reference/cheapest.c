/* cheapest FROM TO: does looking at two candidates lose anything? For each Lambda from FROM to TO, each offset of the table (100 stands there twice
 * and is run once) and each clamped residual: is one of the pulses -40 to 40 cheaper than the first candidate? It prints for each offset how many
 * choices there were, how many had a cheaper pulse, and the one that loses most. Written from docs/RULES.md, "One sample", in 64 bits, where nothing
 * wraps; it shares nothing with the code. Request E10 proves that with Lambda from 0 to 1104 no pulse at all is cheaper.
 *
 *     mkdir -p target && gcc -O2 tests/reference/cheapest.c -o target/cheapest && target/cheapest 0 1104 && target/cheapest 1105 1105 */
#include <stdint.h>
#include <stdio.h>
#include <stdlib.h>

static int64_t floored(int64_t a, int64_t b)
{
    return a >= 0 ? a / b : -((-a + b - 1) / b);
}

static int64_t level(int64_t pulse, int64_t offset)
{
    return 1024 * pulse + offset - (pulse > 0 ? 80 : pulse < 0 ? -80 : 0);
}

static int64_t cost(int64_t residual, int64_t lambda, int64_t lev)
{
    return floored(llabs(lev) * (int16_t)lambda + (residual - lev) * (residual - lev), 1024);
}

static int64_t lower(int64_t q, int64_t lambda)
{
    int64_t d = lambda / 2 - 512;
    if (lambda <= 2048)
        return floored(q, 1024);
    if (q > d)
        return floored(q - d, 1024);
    if (q < -d)
        return floored(q + d, 1024);
    return q < 0 ? -1 : 0;
}

/* a choice: the first candidate's pulse and cost, and the pulse that costs least, by how much less */
struct choice {
    int64_t residual, lambda, first, cost, best, less;
};

static struct choice chosen(int64_t residual, int64_t lambda, int64_t offset)
{
    int64_t lo = lower(residual - offset, lambda);
    int64_t a = cost(residual, lambda, level(lo, offset)), b = cost(residual, lambda, level(lo + 1, offset));
    struct choice c = {residual, lambda, a < b ? lo : lo + 1, a < b ? a : b, 0, 0};
    for (int64_t p = -40; p <= 40; p++) {
        int64_t less = c.cost - cost(residual, lambda, level(p, offset));
        if (less > c.less) {
            c.best = p;
            c.less = less;
        }
    }
    return c;
}

static void search(int64_t from, int64_t to, int64_t offset)
{
    int64_t choices = 0, cheaper = 0;
    struct choice most = {0};
    for (int64_t lambda = from; lambda <= to; lambda++)
        for (int64_t residual = -31744; residual <= 30720; residual++) {
            struct choice c = chosen(residual, lambda, offset);
            choices++;
            cheaper += c.less > 0;
            if (c.less > most.less)
                most = c;
        }
    printf("offset %lld: %lld choices, %lld with a cheaper pulse\n", (long long)offset, (long long)choices, (long long)cheaper);
    if (cheaper > 0)
        printf("  Lambda %lld, residual %lld: pulse %lld is taken at %lld, pulse %lld would cost %lld less\n", (long long)most.lambda,
               (long long)most.residual, (long long)most.first, (long long)most.cost, (long long)most.best, (long long)most.less);
}

int main(int argc, char **argv)
{
    const int64_t offsets[3] = {32, 100, 240};
    if (argc != 3) {
        fprintf(stderr, "cheapest FROM TO\n");
        return 2;
    }
    for (int k = 0; k < 3; k++)
        search(atoll(argv[1]), atoll(argv[2]), offsets[k]);
    return 0;
}
