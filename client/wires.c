/* Runs the compiled test of a letter's wire literals against a loop over the wires: each wire looked at by
 * itself and left out by itself, and random words, with none to all of the wires looked at and none to all of them as
 * wanted. Prints how many it took, and exits with 1 at the first that differs. */
#include <stdbool.h>
#include <stdint.h>
#include <stdio.h>
#include <stdlib.h>

bool passes(uint64_t look, uint64_t want, uint64_t word);

static bool by_wires(uint64_t look, uint64_t want, uint64_t word)
{
    for (int i = 0; i < 64; i++)
        if (look >> i & 1 && (word >> i & 1) != (want >> i & 1))
            return false;
    return true;
}

static unsigned long taken[2];

static void compare(uint64_t look, uint64_t want, uint64_t word)
{
    bool right = by_wires(look, want, word);
    if (passes(look, want, word) != right) {
        printf("wires: passes(%#jx, %#jx, %#jx) is not %d\n", (uintmax_t)look, (uintmax_t)want, (uintmax_t)word, right);
        exit(1);
    }
    taken[right]++;
}

/* splitmix64 */
static uint64_t random_word(void)
{
    static uint64_t state;
    uint64_t z = state += 0x9e3779b97f4a7c15;
    z = (z ^ z >> 30) * 0xbf58476d1ce4e5b9;
    z = (z ^ z >> 27) * 0x94d049bb133111eb;
    return z ^ z >> 31;
}

/* Each bit stands with a chance of 1 in 2 to the `times`. */
static uint64_t sparse_word(unsigned times)
{
    uint64_t word = ~UINT64_C(0);
    while (times--)
        word &= random_word();
    return word;
}

int main(void)
{
    for (int i = 0; i < 64; i++)
        for (int k = 0; k < 16; k++) {
            uint64_t wire = UINT64_C(1) << i;
            compare(k & 1 ? wire : 0, (k & 2 ? wire : 0) | (k & 8 ? ~wire : 0), k & 4 ? wire : 0);
            compare(k & 1 ? ~wire : 0, (k & 2 ? wire : 0) | (k & 8 ? ~wire : 0), (k & 4 ? wire : 0) | (k & 8 ? ~wire : 0));
        }
    for (int n = 0; n < 1000000; n++) {
        uint64_t want = random_word();
        compare(sparse_word(n % 8), want, want ^ sparse_word(n / 8 % 8));
    }
    printf("wires: %lu times no and %lu times yes, as wire by wire\n", taken[0], taken[1]);
}
