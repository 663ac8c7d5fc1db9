/* Runs the browser on tables cut short and tables with bytes changed, in one process, so that the sanitizers watch thousands of runs.
 *
 *     damage SCRATCH FILE...    each FILE is damaged in many ways; SCRATCH holds the damaged table that the browser is given
 *
 * host/browser/main.c is compiled with its main called browser_main. The numbers come from a fixed seed, so each run is the same.
 * Exit status 0 where every run of the browser ended with 0, 1 or 2; the last line on standard error counts them. */
#include <stdint.h>
#include <stdio.h>

int browser_main(int argc, char **argv);

enum { MOST = 65536, ROUNDS = 150, CUTS = 40 };

static unsigned char whole[MOST];
static unsigned char damaged[MOST];
static unsigned long ended[3];

/* A pseudo-random number below `bound` (splitmix64). */
static size_t below(uint64_t *seed, size_t bound)
{
    uint64_t z = *seed += UINT64_C(0x9E3779B97F4A7C15);
    z = (z ^ z >> 30) * UINT64_C(0xBF58476D1CE4E5B9);
    z = (z ^ z >> 27) * UINT64_C(0x94D049BB133111EB);
    return (size_t)((z ^ z >> 31) % bound);
}

/* Hands the first `size` damaged bytes to the browser: the whole view, or transition `k`. */
static int browse(char *scratch, size_t size, char *k)
{
    char *arguments[] = {(char *)"browser", scratch, k, NULL};
    remove(scratch); /* a file written anew is not forced to the disk, one overwritten may be */
    FILE *out = fopen(scratch, "wb");
    if (out == NULL || fwrite(damaged, 1, size, out) != size || fclose(out) != 0) {
        perror(scratch);
        return 0;
    }
    int status = browser_main(k == NULL ? 2 : 3, arguments);
    if (status < 0 || status > 2)
        return 0;
    ended[status]++;
    return 1;
}

static void copy(size_t size)
{
    for (size_t i = 0; i < size; i++)
        damaged[i] = whole[i];
}

/* A byte to change: one of the last, which are of the strategy, or one of the first, where counts and reads are, or any. */
static size_t target(uint64_t *seed, size_t size)
{
    switch (below(seed, 4)) {
    case 0: return below(seed, size < 60 ? size : 60);
    case 1: return below(seed, size);
    default: return size - 1 - below(seed, size < 40 ? size : 40);
    }
}

/* One to three bytes get another value. */
static void change(uint64_t *seed, size_t size)
{
    for (size_t left = 1 + below(seed, 3); left > 0; left--) {
        size_t at = target(seed, size);
        size_t small = below(seed, 9);
        size_t flipped = damaged[at] ^ (size_t)1 << below(seed, 8);
        damaged[at] = (unsigned char)(below(seed, 2) == 0 ? small : flipped);
    }
}

static int damage(char *scratch, size_t size, uint64_t seed)
{
    char *asked[] = {NULL, NULL, (char *)"0", (char *)"1", (char *)"65536"};
    copy(size);
    for (size_t cut = 0; cut < CUTS; cut++) {
        size_t kept = size <= CUTS ? cut % (size + 1) : below(&seed, size);
        if (!browse(scratch, kept, NULL))
            return 0;
    }
    for (size_t round = 0; round < ROUNDS; round++) {
        copy(size);
        change(&seed, size);
        if (!browse(scratch, size, asked[below(&seed, 5)]))
            return 0;
    }
    return 1;
}

int main(int argc, char **argv)
{
    for (int i = 2; i < argc; i++) {
        FILE *in = fopen(argv[i], "rb");
        size_t size = in == NULL ? 0 : fread(whole, 1, MOST, in);
        if (in == NULL || size == 0 || fclose(in) != 0 || !damage(argv[1], size, (uint64_t)i)) {
            fprintf(stderr, "damage: failed on %s\n", argv[i]);
            return 1;
        }
    }
    fprintf(stderr, "damage: %lu shown, %lu refused, %lu not readable\n", ended[0], ended[1], ended[2]);
    return ended[0] + ended[1] + ended[2] == 0;
}
