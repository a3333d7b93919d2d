/* A drill over plain structures, to compare times with: the same searches, workers, runs, reports and reverts as `drill`
 * plays, in threads that share one farm under one mutex, and the same line. The farm keeps an array of entries, a table of
 * the keys, weights as 128-bit numbers, a list of searches by their last lease, and a log of bytes that grows by each entry.
 *
 * Its words are the numbers of searches and workers. It prints the line, and then the nanoseconds that the drill took.
 */
#include <pthread.h>
#include <stdint.h>
#include <stdio.h>
#include <stdlib.h>
#include <string.h>
#include <time.h>

typedef unsigned __int128 u128;

enum { SUSPECTS = 101, OUT = 32, LEASED = 1, REPORTED, OPENED, ORDERED };
enum standing { SEARCHING, VERIFYING, CONFIRMED, NO_CULPRIT, OTHER };

struct out {
    uint32_t run;
    int position, verify;
};

struct search {
    int n, truth, width, reruns, floor, load, budget, culprit, fails, passes, outs;
    uint32_t rate;
    enum standing standing;
    u128 weight[SUSPECTS + 1];
    struct out out[OUT];
    int before, after;
};

struct entry {
    uint64_t at;
    int what;
    uint32_t run, search;
    int position, verify, verdict;
    u128 key;
    char worker[16];
};

struct farm {
    pthread_mutex_t lock;
    struct search *searches;
    int count, first, last;
    struct entry *entries;
    size_t entry_count, entry_room;
    u128 *keys;
    size_t key_room, key_count;
    unsigned char *log;
    size_t log_count, log_room;
    struct entry *runs;
    size_t run_count, run_room;
    int confirmed, no_culprit, other, orders;
};

static struct farm farm;

static void *grown(void *old, size_t count, size_t *room, size_t size) {
    if (count < *room)
        return old;
    *room = *room ? 2 * *room : 64;
    void *new = realloc(old, *room * size);
    if (!new)
        exit(1);
    return new;
}

static size_t slot_of(u128 key) {
    uint64_t x = (uint64_t)key * UINT64_C(0x9E3779B97F4A7C15) ^ (uint64_t)(key >> 64) * UINT64_C(0xC2B2AE3D27D4EB4F);
    return (x ^ x >> 29) & (farm.key_room - 1);
}

static int has_key(u128 key) {
    for (size_t i = slot_of(key);; i = (i + 1) & (farm.key_room - 1)) {
        if (farm.keys[i] == ~(u128)0)
            return 0;
        if (farm.keys[i] == key)
            return 1;
    }
}

static void put_key(u128 key) {
    if (2 * (farm.key_count + 1) > farm.key_room) {
        u128 *old = farm.keys;
        size_t room = farm.key_room;
        farm.key_room = room ? 2 * room : 1024;
        farm.keys = malloc(farm.key_room * sizeof *farm.keys);
        memset(farm.keys, 0xFF, farm.key_room * sizeof *farm.keys);
        farm.key_count = 0;
        for (size_t i = 0; i < room; i++)
            if (old[i] != ~(u128)0)
                put_key(old[i]);
        free(old);
    }
    size_t i = slot_of(key);
    while (farm.keys[i] != ~(u128)0)
        i = (i + 1) & (farm.key_room - 1);
    farm.keys[i] = key;
    farm.key_count++;
}

static void record(struct entry e, size_t bytes) {
    farm.entries = grown(farm.entries, farm.entry_count, &farm.entry_room, sizeof *farm.entries);
    farm.entries[farm.entry_count++] = e;
    for (size_t i = 0; i < bytes; i++) {
        farm.log = grown(farm.log, farm.log_count, &farm.log_room, 1);
        farm.log[farm.log_count++] = (unsigned char)(e.run >> (8 * (i & 3)));
    }
}

/* The list of searches by their last lease. */
static void take_out(int s) {
    struct search *x = &farm.searches[s];
    if (x->before)
        farm.searches[x->before].after = x->after;
    else
        farm.first = x->after;
    if (x->after)
        farm.searches[x->after].before = x->before;
    else
        farm.last = x->before;
}

static void put_last(int s) {
    struct search *x = &farm.searches[s];
    x->before = farm.last;
    x->after = 0;
    if (farm.last)
        farm.searches[farm.last].after = s;
    else
        farm.first = s;
    farm.last = s;
}

static int truth_of(int s, int n) { return s % 5 == 0 ? 0 : 1 + 53 * s % n; }

static void stand(int s, enum standing now) {
    struct search *x = &farm.searches[s];
    x->standing = now;
    if (now == CONFIRMED)
        farm.confirmed++;
    else if (now == NO_CULPRIT)
        farm.no_culprit++;
    else if (now == OTHER)
        farm.other++;
    if (now != SEARCHING && now != VERIFYING)
        take_out(s);
}

static void look_at_bar(int s) {
    struct search *x = &farm.searches[s];
    u128 total = 0;
    for (int i = 1; i <= x->n + 1; i++)
        total += x->weight[i];
    for (int i = 1; i <= x->n + 1; i++)
        if (99 * total <= 100 * x->weight[i]) {
            x->culprit = i;
            x->outs = 0;
            stand(s, i == x->n + 1 ? NO_CULPRIT : VERIFYING);
            return;
        }
}

static void open_search(int s) {
    struct search *x = &farm.searches[s];
    memset(x, 0, sizeof *x);
    x->n = 20 + 37 * s % 81;
    x->truth = truth_of(s, x->n);
    x->rate = 5 + s % 4;
    x->width = 1 + s % 8;
    x->reruns = 1 + s % 3;
    u128 total = 0;
    for (int i = 1; i <= x->n; i++)
        total += x->weight[i] = 1 + i * s % 7;
    total += x->weight[x->n + 1] = 1 + x->n / 2;
    for (u128 room = ~(u128)0 / 10000 / total; room >= x->rate; room /= x->rate)
        x->budget++;
    put_key((u128)s);
    struct entry e = {86401000, OPENED, 0, s, 0, 0, 0, (u128)s, "drill"};
    record(e, 64 + 22 * x->n);
    put_last(s);
    look_at_bar(s);
}

/* The position above the floor whose cumulative weight is nearest to the j-th of k thresholds. */
static int pick(const struct search *x, const u128 *sums, int k, int j) {
    u128 at = (u128)j * sums[x->n + 1];
    int low = x->floor + 1, high = x->n;
    while (low < high) {
        int mid = (low + high) / 2;
        if (sums[mid] * (k + 1) >= at)
            high = mid;
        else
            low = mid + 1;
    }
    if (low > x->floor + 1) {
        u128 here = sums[low] * (k + 1), below = sums[low - 1] * (k + 1);
        u128 up = here >= at ? here - at : at - here;
        u128 down = at - below;
        if (down <= up) {
            low--;
            while (low > x->floor + 1 && sums[low - 1] == sums[low])
                low--;
        }
    }
    return low;
}

static int due(const struct search *x) {
    if (x->standing == VERIFYING) {
        int at = x->fails, parent = x->passes;
        for (int i = 0; i < x->outs; i++) {
            at += x->out[i].position == x->culprit;
            parent += x->out[i].position == x->culprit - 1;
        }
        return at < x->reruns ? x->culprit : parent < x->reruns ? x->culprit - 1 : -1;
    }
    if (x->outs >= x->width)
        return -1;
    u128 sums[SUSPECTS + 1] = {0};
    for (int i = 1; i <= x->n + 1; i++)
        sums[i] = sums[i - 1] + x->weight[i];
    int plan[8], struck[8] = {0};
    for (int j = 1; j <= x->width; j++)
        plan[j - 1] = pick(x, sums, x->width, j);
    for (int i = 0; i < x->outs; i++)
        for (int j = 0; j < x->width; j++)
            if (!struck[j] && plan[j] == x->out[i].position) {
                struck[j] = 1;
                break;
            }
    for (int j = 0; j < x->width; j++)
        if (!struck[j])
            return plan[j];
    return -1;
}

/* The run that is due, or 0. */
static uint32_t lease(const char *worker, u128 key, int *search, int *position) {
    pthread_mutex_lock(&farm.lock);
    uint32_t run = 0;
    if (!has_key(key))
        for (int s = farm.first; s; s = farm.searches[s].after) {
            struct search *x = &farm.searches[s];
            int at = due(x);
            if (at < 0)
                continue;
            farm.runs = grown(farm.runs, farm.run_count, &farm.run_room, sizeof *farm.runs);
            run = farm.run_count + 1;
            struct entry e = {86401000, LEASED, run, s, at, x->standing == VERIFYING, 0, key, ""};
            strcpy(e.worker, worker);
            farm.runs[farm.run_count++] = e;
            record(e, 47);
            put_key(key);
            x->out[x->outs++] = (struct out){run, at, e.verify};
            take_out(s);
            put_last(s);
            *search = s;
            *position = at;
            break;
        }
    pthread_mutex_unlock(&farm.lock);
    return run;
}

static void count(int s, const struct entry *run, int fails) {
    struct search *x = &farm.searches[s];
    if (run->verify) {
        int at = run->position == x->culprit;
        if ((at ? x->fails : x->passes) >= x->reruns)
            return;
        if (at != fails) {
            stand(s, OTHER);
            return;
        }
        if (at)
            x->fails++;
        else
            x->passes++;
        if (x->fails >= x->reruns && x->passes >= x->reruns)
            stand(s, CONFIRMED);
        return;
    }
    if (fails && run->position > x->floor) {
        if (++x->load > x->budget) {
            stand(s, OTHER);
            return;
        }
        for (int i = 1; i <= run->position; i++)
            x->weight[i] *= x->rate;
    } else if (!fails && run->position > x->floor) {
        x->floor = run->position;
        for (int i = 1; i <= run->position; i++)
            x->weight[i] = 0;
    }
    look_at_bar(s);
}

static void report(uint32_t number, int fails) {
    pthread_mutex_lock(&farm.lock);
    struct entry *run = &farm.runs[number - 1];
    struct search *x = &farm.searches[run->search];
    struct entry e = {86401000, REPORTED, number, run->search, 0, 0, fails, 0, ""};
    record(e, 15);
    for (int i = 0; i < x->outs; i++)
        if (x->out[i].run == number) {
            memmove(&x->out[i], &x->out[i + 1], (--x->outs - i) * sizeof x->out[0]);
            break;
        }
    if (x->standing == (run->verify ? VERIFYING : SEARCHING))
        count(run->search, run, fails);
    pthread_mutex_unlock(&farm.lock);
}

static void *work(void *number) {
    uintptr_t me = (uintptr_t)number;
    char name[16];
    snprintf(name, sizeof name, "w%d", (int)me);
    for (u128 j = 1;; j++) {
        int s = 0, position = 0;
        uint32_t run = lease(name, ((u128)me << 64) + j, &s, &position);
        if (!run)
            return NULL;
        int truth = truth_of(s, 20 + 37 * s % 81);
        report(run, truth && truth <= position);
    }
}

static void take_reverts(void) {
    u128 key = 0;
    for (int s = 1; s <= farm.count; s++)
        if (farm.searches[s].standing == CONFIRMED) {
            while (has_key(key))
                key++;
            put_key(key);
            uint64_t at = UINT64_C(86400000) * (2 + farm.orders / 1000);
            struct entry e = {at, ORDERED, ++farm.orders, s, 0, 0, 0, key, "caller"};
            record(e, 60);
        }
}

static int64_t now(void) {
    struct timespec t;
    clock_gettime(CLOCK_MONOTONIC, &t);
    return t.tv_sec * INT64_C(1000000000) + t.tv_nsec;
}

int main(int count, char **words) {
    if (count != 3)
        return 2;
    int searches = atoi(words[1]);
    uintptr_t workers = atoi(words[2]);
    pthread_t threads[4];
    if (searches < 1 || searches > 2000 || workers < 1 || workers > 4)
        return 2;
    int64_t began = now();
    pthread_mutex_init(&farm.lock, NULL);
    farm.count = searches;
    farm.searches = calloc(searches + 1, sizeof *farm.searches);
    for (int s = 1; s <= searches; s++)
        open_search(s);
    for (uintptr_t i = 1; i <= workers; i++)
        if (pthread_create(&threads[i - 1], NULL, work, (void *)i))
            return 1;
    for (uintptr_t i = 0; i < workers; i++)
        pthread_join(threads[i], NULL);
    take_reverts();
    int64_t took = now() - began;
    printf("searches %d confirmed %d no-culprit %d other %d orders %d\n", farm.count, farm.confirmed, farm.no_culprit,
        farm.count - farm.confirmed - farm.no_culprit, farm.orders);
    printf("%lld\n", (long long)took);
    fprintf(stderr, "%zu runs, %zu entries, %zu bytes\n", farm.run_count, farm.entry_count, farm.log_count);
    return 0;
}
