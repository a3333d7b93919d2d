/* A plain judge, to compare times with: the same numbers by a loop over 128-bit weights.
 *
 * It reads the same input and writes the same answer, for inputs that are in the form, have no miss line and a flake
 * rate of 1/b, and name nobody before their end. It checks nothing.
 */
#include <stdio.h>
#include <stdlib.h>
#include <string.h>

typedef unsigned __int128 Weight;

enum { MOST = 1001, ROOM = 1 << 22 };

static char input[ROOM];
static Weight weights[MOST];
static unsigned fails[MOST];
static char *at = input;

static unsigned long number(void) { return strtoul(at, &at, 10); }

int main(void) {
    input[fread(input, 1, ROOM - 1, stdin)] = 0;
    at += strlen("search");
    unsigned long a = number(), b = number(), t = number(), u = number(), calm = number();
    size_t n = 0;
    Weight total = calm;
    while (*at == ' ') {
        weights[n] = number();
        total += weights[n++];
    }
    weights[n] = calm;
    unsigned budget = 0, load = 0;
    for (Weight most = total * 10000; most <= ~(Weight)0 / b; most *= b) budget++;
    printf("budget %u\n", budget);
    if (a != 1) return 1;

    size_t floor = 0;
    long named = -1;
    while (*at == '\n' && strncmp(at, "\nrun ", 5) == 0) {
        at += 5;
        unsigned long run = number(), k = number();
        int passed = at[1] == 'p';
        at += 5;
        if (passed && floor < k) {
            for (size_t i = floor; i < k; i++) {
                weights[i] = 0;
                load -= fails[i];
                fails[i] = 0;
            }
            floor = k;
        } else if (!passed && floor < k) {
            if (load++ == budget) return 1;
            fails[k - 1]++;
            for (size_t i = floor; i < k; i++) weights[i] *= b;
        }
        Weight best = 0;
        total = 0;
        for (size_t i = floor; i <= n; i++) {
            total += weights[i];
            if (best < weights[i]) {
                best = weights[i];
                named = (long)i;
            }
        }
        if (t * total > best * u) named = -1;
        printf("run %lu counted\n", run);
    }

    printf("shares");
    for (size_t i = 0; i <= n; i++) printf(" %lu", (unsigned long)(weights[i] * 10000 / total));
    if (named < 0)
        printf("\nstanding searching\n");
    else if ((size_t)named == n)
        printf("\nstanding no culprit\n");
    else
        printf("\nstanding named %ld\n", named + 1);
    return 0;
}
