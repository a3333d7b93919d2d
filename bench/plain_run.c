/* The farm of a script over plain structures, to compare times with: it reads lines from standard input as `run` does,
 * by 8,192 bytes a call, decides each by the farm's rules, and writes its reply, the same bytes as that of `run`, by a
 * call of its own. The farm is founded as that of `run`: at 1970-01-02, with leases of 60 seconds, ten orders a day and
 * days of UTC.
 *
 * It keeps the history as an array of entries, the runs, orders and names in arrays beside it, a table of the keys,
 * lists of the active searches by their last leases, and of each search the cumulative weights as 128-bit numbers.
 *
 * It is written as by one who knows the limits and trusts himself: no sum is checked, and out of memory it ends.
 * Members may stand in any order, with blanks and escapes, members that no rule names among them, and bad lines and
 * fields are refused as by `run`. Left out are the end after 2^30 bytes, the words on standard error, and the exact
 * rounding of a number with a point or an exponent beside the greatest double, which decides whether its line is JSON.
 */
#include <float.h>
#include <stdint.h>
#include <stdlib.h>
#include <string.h>
#include <strings.h>
#include <unistd.h>

typedef unsigned __int128 u128;
typedef const unsigned char *text;

enum {
    PIECE = 8192, LONGEST = 262144, DEEPEST = 127, ID = 20, DIGITS = 2 * ID, MOST_NAME = 200,
    MOST_SUSPECTS = 1000, MOST_ASKED = 6000, MOST_WEIGHT = 65535, MOST_CALM = 1000000, MOST_WIDTH = 8, MOST_RERUNS = 8,
    MOST_LOAD = 127, MOST_OUT = 2 * MOST_RERUNS, MOST_ENTRIES = 1000000, MOST_SEARCHES = 2000, DAILY = 10,
    LEASE_MS = 60000, DAY_MS = 86400000, BASIS_POINTS = 10000, SLOTS = 4096, MOST_REPLY = 1 << 21
};
static const uint64_t LAST_MS = 4102444800000;

/* -- What a line says -- */

enum field {
    AT, DO, KEY, TEST, BASE, SUSPECTS, CALM, RATE, MISS, BAR, WIDTH, RERUNS, WORKER, RUN, VERDICT, SEARCH, AGENT, OTHER
};
static const char *const field_name[] = {
    "at", "do", "key", "test", "base", "suspects", "calm", "rate", "miss", "bar", "width", "reruns", "worker", "run",
    "verdict", "search", "agent"
};

/* Where a value stands in the line. */
struct value {
    text from, end;
};

struct name {
    text from;
    size_t length;
};

struct suspect {
    unsigned char id[ID];
    uint32_t weight;
};

static unsigned char is_plain[256]; /* bytes that stand in a string for themselves, by ones */
static unsigned char hex[256];      /* the values of the digits, and 0xFF for any other byte */
static unsigned char input[LONGEST + 1 + PIECE + 64];
static unsigned char unescaped[LONGEST];
static unsigned char *unescaped_end;
static struct value found[OTHER + 1];
static struct suspect suspects[MOST_ASKED];
static uint32_t suspect_count;
static int has_suspects; /* the suspects of the line were read on the way */

static void make_tables(void) {
    memset(is_plain + ' ', 1, 0x80 - ' ');
    is_plain['"'] = is_plain['\\'] = 0;
    memset(hex, 0xFF, sizeof hex);
    for (int i = 0; i < 10; i++)
        hex['0' + i] = i;
    for (int i = 10; i < 16; i++)
        hex['a' + i - 10] = hex['A' + i - 10] = i;
}

/* A zero stands behind each line, at which every step below stops. */

static text blank_end(text p) {
    while (*p == ' ' || *p == '\t' || *p == '\r')
        p++;
    return p;
}

static int is_digit(unsigned char c) { return c >= '0' && c <= '9'; }

static int is_tail(unsigned char c) { return c >> 6 == 2; }

/* Behind a character of several bytes in UTF-8. */
static text wide_end(text p) {
    if (*p >= 0xC2 && *p <= 0xDF)
        return is_tail(p[1]) ? p + 2 : NULL;
    if (*p >= 0xE0 && *p <= 0xEF) {
        int fits = *p == 0xE0 ? p[1] >= 0xA0 : *p == 0xED ? p[1] <= 0x9F : 1;
        return fits && is_tail(p[1]) && is_tail(p[2]) ? p + 3 : NULL;
    }
    if (*p >= 0xF0 && *p <= 0xF4) {
        int fits = *p == 0xF0 ? p[1] >= 0x90 : *p == 0xF4 ? p[1] <= 0x8F : 1;
        return fits && is_tail(p[1]) && is_tail(p[2]) && is_tail(p[3]) ? p + 4 : NULL;
    }
    return NULL;
}

/* The number of four digits, or one above 0xFFFF. */
static unsigned unit_of(text p) {
    unsigned unit = 0;
    for (int i = 0; i < 4; i++) {
        if (hex[p[i]] == 0xFF)
            return 0x10000;
        unit = unit << 4 | hex[p[i]];
    }
    return unit;
}

/* Behind an escape, from behind its backslash, and what it stands for. */
static text escape_end(text p, uint32_t *code) {
    static const char short_ones[] = "\"\\/bfnrt", stand_for[] = "\"\\/\b\f\n\r\t";
    if (*p != 'u') {
        const char *at = *p ? strchr(short_ones, *p) : NULL;
        if (!at)
            return NULL;
        *code = stand_for[at - short_ones];
        return p + 1;
    }
    *code = unit_of(p + 1);
    if (*code > 0xFFFF || (*code >= 0xDC00 && *code <= 0xDFFF))
        return NULL;
    if (*code < 0xD800 || *code > 0xDBFF)
        return p + 5;
    unsigned low = p[5] == '\\' && p[6] == 'u' ? unit_of(p + 7) : 0;
    if (low < 0xDC00 || low > 0xDFFF)
        return NULL;
    *code = 0x10000 + ((*code - 0xD800) << 10) + (low - 0xDC00);
    return p + 11;
}

/* Behind a string, from behind its first quote. */
static text string_end(text p) {
    uint32_t code;
    while (p) {
        while (is_plain[*p])
            p++;
        if (*p == '"')
            return p + 1;
        p = *p == '\\' ? escape_end(p + 1, &code) : wide_end(p);
    }
    return NULL;
}

static text number_end(text p) {
    text from = p;
    int is_whole = 1;
    p += *p == '-';
    if (!is_digit(*p))
        return NULL;
    if (*p++ != '0')
        while (is_digit(*p))
            p++;
    if (*p == '.') {
        is_whole = 0;
        if (!is_digit(*++p))
            return NULL;
        while (is_digit(*p))
            p++;
    }
    if (*p == 'e' || *p == 'E') {
        is_whole = 0;
        p++;
        p += *p == '+' || *p == '-';
        if (!is_digit(*p))
            return NULL;
        while (is_digit(*p))
            p++;
    }
    if (is_whole && p - from < DBL_MAX_10_EXP)
        return p;
    double number = strtod((const char *)from, NULL);
    return number <= DBL_MAX && number >= -DBL_MAX ? p : NULL;
}

static text word_end(text p, const char *word) {
    size_t length = strlen(word);
    return strncmp((const char *)p, word, length) == 0 ? p + length : NULL;
}

/* Behind a value that stands within so many arrays and objects. */
static text value_end(text p, int depth) {
    if (*p == '"')
        return string_end(p + 1);
    if (*p == 't')
        return word_end(p, "true");
    if (*p == 'f')
        return word_end(p, "false");
    if (*p == 'n')
        return word_end(p, "null");
    if (*p != '[' && *p != '{')
        return number_end(p);
    if (depth == DEEPEST)
        return NULL;
    int is_object = *p == '{';
    unsigned char close = is_object ? '}' : ']';
    p = blank_end(p + 1);
    if (*p == close)
        return p + 1;
    for (;; p = blank_end(p + 1)) {
        if (is_object) {
            if (*p != '"' || !(p = string_end(p + 1)))
                return NULL;
            p = blank_end(p);
            if (*p != ':')
                return NULL;
            p = blank_end(p + 1);
        }
        if (!(p = value_end(p, depth + 1)))
            return NULL;
        p = blank_end(p);
        if (*p == close)
            return p + 1;
        if (*p != ',')
            return NULL;
    }
}

static int is_id(text digits, unsigned char *id) {
    unsigned all = 0;
    for (int i = 0; i < ID; i++) {
        unsigned high = hex[digits[2 * i]], low = hex[digits[2 * i + 1]];
        all |= high | low;
        id[i] = high << 4 | low;
    }
    return all < 16;
}

/* Behind an array of suspects that has no escapes, which are read; else nothing, and the array is read later. */
static text suspects_end(text p) {
    uint32_t count = 0;
    do {
        struct suspect *s = &suspects[count];
        p = blank_end(p + 1);
        if (*p != '[')
            return NULL;
        p = blank_end(p + 1);
        if (*p != '"' || !is_id(p + 1, s->id) || p[1 + DIGITS] != '"')
            return NULL;
        p = blank_end(p + 2 + DIGITS);
        if (*p != ',')
            return NULL;
        p = blank_end(p + 1);
        uint64_t weight = 0;
        text from = p;
        for (; is_digit(*p) && p - from < 10; p++)
            weight = 10 * weight + (*p - '0');
        if (p == from || (*from == '0' && p - from > 1) || weight > UINT32_MAX)
            return NULL;
        s->weight = weight;
        p = blank_end(p);
        if (*p != ']')
            return NULL;
        p = blank_end(p + 1);
        count++;
    } while (*p == ',');
    if (*p != ']')
        return NULL;
    suspect_count = count;
    has_suspects = 1;
    return p + 1;
}

/* The bytes that a string stands for, from behind its first quote to before its last one. */
static struct name characters(text p, text end) {
    if (!memchr(p, '\\', end - p))
        return (struct name){p, end - p};
    unsigned char *from = unescaped_end, *to = from;
    while (p < end) {
        if (*p != '\\') {
            *to++ = *p++;
            continue;
        }
        uint32_t code;
        p = escape_end(p + 1, &code);
        if (code < 0x80)
            *to++ = code;
        else {
            int tails = code < 0x800 ? 1 : code < 0x10000 ? 2 : 3;
            *to++ = (0xF0 << (3 - tails)) | code >> 6 * tails;
            while (tails--)
                *to++ = 0x80 | (code >> 6 * tails & 0x3F);
        }
    }
    unescaped_end = to;
    return (struct name){from, to - from};
}

static int is_word(struct name name, const char *word) {
    return name.length == strlen(word) && memcmp(name.from, word, name.length) == 0;
}

static enum field field_of(struct name name) {
    static const unsigned char by_length[][6] = {
        {OTHER}, {OTHER}, {AT, DO, OTHER}, {KEY, RUN, BAR, OTHER}, {TEST, BASE, CALM, RATE, MISS, OTHER},
        {WIDTH, AGENT, OTHER}, {SEARCH, WORKER, RERUNS, OTHER}, {VERDICT, OTHER}, {SUSPECTS, OTHER}
    };
    if (name.length >= sizeof by_length / sizeof by_length[0])
        return OTHER;
    const unsigned char *field = by_length[name.length];
    while (*field != OTHER && memcmp(field_name[*field], name.from, name.length) != 0)
        field++;
    return *field;
}

/* Finds the members of the object that a line is, the last one of each name; or says that it is none. */
static int is_object(text p, text end) {
    memset(found, 0, sizeof found);
    unescaped_end = unescaped;
    p = blank_end(p);
    if (*p != '{')
        return 0;
    p = blank_end(p + 1);
    if (*p != '}')
        for (;; p = blank_end(p + 1)) {
            text name = p + 1;
            if (*p != '"' || !(p = string_end(name)))
                return 0;
            enum field field = field_of(characters(name, p - 1));
            p = blank_end(p);
            if (*p != ':')
                return 0;
            text from = blank_end(p + 1);
            p = NULL;
            if (field == SUSPECTS) {
                has_suspects = 0;
                if (*from == '[')
                    p = suspects_end(from);
            }
            if (!p && !(p = value_end(from, 1)))
                return 0;
            found[field] = (struct value){from, p};
            p = blank_end(p);
            if (*p == '}')
                break;
            if (*p != ',')
                return 0;
        }
    return blank_end(p + 1) == end;
}

static int is_whole(struct value v, uint64_t *number) {
    if (!v.from || v.end - v.from > 20)
        return 0;
    uint64_t n = 0;
    for (text p = v.from; p < v.end; p++)
        if (!is_digit(*p) || __builtin_mul_overflow(n, 10, &n) || __builtin_add_overflow(n, *p - '0', &n))
            return 0;
    *number = n;
    return 1;
}

static int is_small(struct value v, uint32_t *number) {
    uint64_t n;
    if (!is_whole(v, &n) || n > UINT32_MAX)
        return 0;
    *number = n;
    return 1;
}

static int is_ordinal(struct value v, uint32_t *number) { return is_small(v, number) && *number > 0; }

static int is_text(struct value v, struct name *name) {
    if (!v.from || *v.from != '"')
        return 0;
    *name = characters(v.from + 1, v.end - 1);
    return 1;
}

static int is_name(struct value v, struct name *name) {
    if (!is_text(v, name) || name->length < 1 || name->length > MOST_NAME)
        return 0;
    for (size_t i = 0; i < name->length; i++)
        if (name->from[i] < ' ' || name->from[i] > '~')
            return 0;
    return 1;
}

static int is_commit(struct value v, unsigned char *id) {
    struct name name;
    return is_text(v, &name) && name.length == DIGITS && is_id(name.from, id);
}

static int is_key(struct value v, u128 *key) {
    static const unsigned char groups[] = {8, 4, 4, 4, 12};
    struct name name;
    if (!is_text(v, &name))
        return 0;
    text p = name.from;
    int is_plain_form = name.length == 32;
    if (name.length == 38 && p[0] == '{' && p[37] == '}')
        p++;
    else if (name.length == 45 && strncasecmp((const char *)p, "urn:uuid:", 9) == 0)
        p += 9;
    else if (name.length != 36 && !is_plain_form)
        return 0;
    uint64_t half[2] = {0, 0};
    unsigned all = 0, digits = 0;
    for (int i = 0; i < 5; i++) {
        if (i > 0 && !is_plain_form && *p++ != '-')
            return 0;
        for (int j = 0; j < groups[i]; j++, digits++) {
            all |= hex[*p];
            half[digits / 16] = half[digits / 16] << 4 | hex[*p++];
        }
    }
    *key = (u128)half[0] << 64 | half[1];
    return all < 16;
}

/* Finds the next item of an array, from behind its bracket or the item before; says whether there is one. */
static int next_item(text *p, struct value *item) {
    text from = blank_end(*p);
    if (*from == ',')
        from = blank_end(from + 1);
    if (*from == ']')
        return 0;
    *item = (struct value){from, value_end(from, 0)};
    *p = item->end;
    return 1;
}

/* The two items of an array that has just two. */
static int is_pair(struct value v, struct value *first, struct value *second) {
    struct value third;
    if (!v.from || *v.from != '[')
        return 0;
    text p = v.from + 1;
    return next_item(&p, first) && next_item(&p, second) && !next_item(&p, &third);
}

static int is_fraction(struct value v, uint32_t *numerator, uint32_t *denominator) {
    struct value first, second;
    return is_pair(v, &first, &second) && is_small(first, numerator) && is_small(second, denominator);
}

static int are_suspects(struct value v) {
    struct value item, commit, weight;
    if (!v.from || *v.from != '[')
        return 0;
    if (has_suspects)
        return 1;
    suspect_count = 0;
    for (text p = v.from + 1; next_item(&p, &item); suspect_count++) {
        struct suspect *s = &suspects[suspect_count];
        if (!is_pair(item, &commit, &weight) || !is_commit(commit, s->id) || !is_small(weight, &s->weight))
            return 0;
    }
    return 1;
}

/* -- The farm -- */

enum standing { SEARCHING, VERIFYING, CONFIRMED, VINDICATED, NO_CULPRIT, INCONCLUSIVE, CANCELLED, STANDINGS };
enum what { FOUNDED, OPENED, LEASED, REPORTED, CANCELED, ORDERED };
enum fate { NONE, COUNTED, LATE, OVER };

struct stood {
    uint16_t culprit;
    uint8_t standing;
};

/* A name that is kept: where it stands among the names. */
struct kept {
    uint32_t from;
    uint8_t length;
};

struct out {
    uint64_t deadline;
    uint32_t run;
    uint16_t position;
};

struct search {
    u128 *sums; /* the weights of hypotheses 1 to i, at i; those up to the floor are 0 */
    unsigned char (*commits)[ID]; /* the base, and then the suspects' */
    uint16_t *weights; /* the priors of the suspects, from the first on */
    uint32_t before, after;
    uint32_t n, calm, a, b, c, d, t, u, fail_in, fail_out, pass_in, pass_out, leases, counted, verified;
    struct kept test;
    struct stood now, at_first;
    uint16_t floor, load, budget, fails, passes;
    uint8_t width, reruns, outs;
    struct out out[MOST_OUT]; /* the runs of the stage that have no report, by their deadlines; some may have expired */
    uint16_t live[MOST_LOAD]; /* where fails above the floor were, where a broken test never passes */
};

struct run {
    uint64_t deadline;
    uint32_t search;
    struct kept worker;
    uint16_t position;
    uint8_t is_verify, fate, is_fail;
    struct stood after;
};

struct order {
    uint32_t search, day;
    struct kept agent;
};

/* An entry, with the number of its search, run or order. */
struct entry {
    u128 key;
    uint64_t at;
    uint32_t number;
    uint8_t what;
};

struct slot {
    uint32_t tag, place;
};

static struct {
    struct search searches[MOST_SEARCHES + 1];
    struct { uint32_t first, last; } lists[2]; /* active searches: never leased, by number; and others by last lease */
    uint32_t search_count, counts[STANDINGS], counted;
    struct entry *entries;
    size_t entry_count, entry_room;
    struct run *runs; /* from the first on */
    size_t run_count, run_room;
    struct order *orders;
    size_t order_count, order_room;
    unsigned char *names;
    size_t name_count, name_room;
    struct slot *slots;
    size_t slot_room, key_count;
    uint64_t waiting[MOST_SEARCHES / 64 + 1]; /* confirmed searches whose commits may have no order yet */
    uint16_t ordered[SLOTS]; /* orders by their commits, from 1 */
    uint32_t day, day_count;
} farm;

static char reply[MOST_REPLY];

static void *grown(void *old, size_t count, size_t *room, size_t size) {
    if (count <= *room)
        return old;
    while (*room < count)
        *room = *room ? 2 * *room : 1024;
    void *new = realloc(old, *room * size);
    if (!new)
        exit(11);
    return new;
}

static struct kept keep(struct name name) {
    farm.names = grown(farm.names, farm.name_count + name.length, &farm.name_room, 1);
    struct kept kept = {farm.name_count, name.length};
    memcpy(farm.names + farm.name_count, name.from, name.length);
    farm.name_count += name.length;
    return kept;
}

static int is_kept(struct kept kept, struct name name) {
    return kept.length == name.length && memcmp(farm.names + kept.from, name.from, name.length) == 0;
}

static uint64_t mixed(uint64_t low, uint64_t high) {
    uint64_t x = low * UINT64_C(0x9E3779B97F4A7C15) ^ high * UINT64_C(0xC2B2AE3D27D4EB4F);
    return (x ^ x >> 32) * UINT64_C(0x9E3779B97F4A7C15);
}

static uint64_t mixed_key(u128 key) { return mixed(key, key >> 64); }

static uint64_t mixed_id(const unsigned char *id) {
    uint64_t a, b;
    uint32_t c;
    memcpy(&a, id, 8);
    memcpy(&b, id + 8, 8);
    memcpy(&c, id + 16, 4);
    return mixed(a ^ (uint64_t)c << 32, b);
}

static void put_slot(struct slot slot) {
    size_t i = slot.tag & (farm.slot_room - 1);
    while (farm.slots[i].place)
        i = (i + 1) & (farm.slot_room - 1);
    farm.slots[i] = slot;
}

/* The place of the entry that holds a key, or 0, where the founding stands. */
static uint32_t place_of_key(u128 key) {
    uint32_t tag = mixed_key(key) >> 32;
    for (size_t i = tag & (farm.slot_room - 1); farm.slots[i].place; i = (i + 1) & (farm.slot_room - 1))
        if (farm.slots[i].tag == tag && farm.entries[farm.slots[i].place].key == key)
            return farm.slots[i].place;
    return 0;
}

static void record(uint64_t at, enum what what, uint32_t number, u128 key) {
    farm.entries = grown(farm.entries, farm.entry_count + 1, &farm.entry_room, sizeof *farm.entries);
    uint32_t place = farm.entry_count++;
    farm.entries[place] = (struct entry){key, at, number, what};
    if (what == FOUNDED || what == REPORTED)
        return;
    if (2 * ++farm.key_count > farm.slot_room) {
        struct slot *old = farm.slots;
        size_t room = farm.slot_room;
        farm.slot_room = 2 * room;
        farm.slots = calloc(farm.slot_room, sizeof *farm.slots);
        if (!farm.slots)
            exit(11);
        for (size_t i = 0; i < room; i++)
            if (old[i].place)
                put_slot(old[i]);
        free(old);
    }
    put_slot((struct slot){mixed_key(key) >> 32, place});
}

static void found_farm(void) {
    farm.slot_room = 1024;
    farm.slots = calloc(farm.slot_room, sizeof *farm.slots);
    if (!farm.slots)
        exit(11);
    record(DAY_MS, FOUNDED, 0, 0);
}

/* The moment at which a line is decided, as moments never fall. */
static uint64_t moment_used(uint64_t at) {
    uint64_t last = farm.entries[farm.entry_count - 1].at;
    return at < last ? last : at;
}

static int is_full(void) { return farm.entry_count >= MOST_ENTRIES; }

static void take_out(uint32_t s) {
    struct search *x = &farm.searches[s];
    int i = x->leases > 0;
    *(x->before ? &farm.searches[x->before].after : &farm.lists[i].first) = x->after;
    *(x->after ? &farm.searches[x->after].before : &farm.lists[i].last) = x->before;
}

static void put_last(uint32_t s) {
    struct search *x = &farm.searches[s];
    int i = x->leases > 0;
    x->before = farm.lists[i].last;
    x->after = 0;
    *(x->before ? &farm.searches[x->before].after : &farm.lists[i].first) = s;
    farm.lists[i].last = s;
}

static int is_active(struct stood now) { return now.standing == SEARCHING || now.standing == VERIFYING; }

static int is_named(struct stood now) { return now.standing >= VERIFYING && now.standing <= VINDICATED; }

static void stand(uint32_t s, enum standing now) {
    struct search *x = &farm.searches[s];
    farm.counts[x->now.standing]--;
    farm.counts[now]++;
    x->now.standing = now;
    x->outs = 0;
    if (!is_active(x->now))
        take_out(s);
    if (now == CONFIRMED)
        farm.waiting[s / 64] |= UINT64_C(1) << s % 64;
}

/* Only the hypothesis in whose span the middle of the whole lies can be at the bar, which is above one half. */
static void look_at_bar(uint32_t s) {
    struct search *x = &farm.searches[s];
    u128 whole = x->sums[x->n + 1];
    uint32_t low = x->floor + 1, high = x->n + 1;
    while (low < high) {
        uint32_t middle = (low + high) / 2;
        if (2 * x->sums[middle] > whole)
            high = middle;
        else
            low = middle + 1;
    }
    if (x->t * whole > (x->sums[low] - x->sums[low - 1]) * x->u)
        return;
    if (low <= x->n)
        x->now.culprit = low;
    stand(s, low <= x->n ? VERIFYING : NO_CULPRIT);
}

/* Multiplies the weights up to a position and those above it. */
static void reweigh(struct search *x, uint32_t position, uint32_t in, uint32_t out) {
    u128 *sums = x->sums, below = sums[position];
    for (uint32_t i = x->floor + 1; i <= position; i++)
        sums[i] *= in;
    if (out == 1)
        for (uint32_t i = position + 1; i <= x->n + 1; i++)
            sums[i] += sums[position] - below;
    else
        for (uint32_t i = position + 1; i <= x->n + 1; i++)
            sums[i] = (sums[i] - below) * out + sums[position];
}

/* Clears the suspects up to a position. What the fails up to there multiplied all others by is divided out. */
static void clear(struct search *x, uint32_t position) {
    u128 below = x->sums[position], common = 1;
    uint32_t load = 0;
    for (uint32_t i = 0; i < x->load; i++)
        if (x->live[i] > position)
            x->live[load++] = x->live[i];
        else
            common *= x->fail_out;
    x->load = load;
    for (uint32_t i = x->floor + 1; i <= position; i++)
        x->sums[i] = 0;
    for (uint32_t i = position + 1; i <= x->n + 1; i++)
        x->sums[i] -= below;
    if (common > 1)
        for (uint32_t i = position + 1; i <= x->n + 1; i++)
            x->sums[i] /= common;
    x->floor = position;
}

static enum fate count_run(uint32_t s, uint32_t position, int is_fail) {
    struct search *x = &farm.searches[s];
    int is_live = x->pass_in > 0 || (is_fail && position > x->floor);
    if (is_live && x->load == x->budget) {
        stand(s, INCONCLUSIVE);
        return OVER;
    }
    x->counted++;
    if (is_live) {
        if (!x->pass_in)
            x->live[x->load] = position;
        x->load++;
        reweigh(x, position, is_fail ? x->fail_in : x->pass_in, is_fail ? x->fail_out : x->pass_out);
    } else if (!is_fail && position > x->floor)
        clear(x, position);
    else
        return COUNTED;
    look_at_bar(s);
    return COUNTED;
}

static enum fate count_rerun(uint32_t s, uint32_t position, int is_fail) {
    struct search *x = &farm.searches[s];
    int is_at = position == x->now.culprit;
    uint16_t *side = is_at ? &x->fails : &x->passes;
    if (*side >= x->reruns)
        return LATE;
    x->verified++;
    ++*side;
    if (is_at != is_fail)
        stand(s, VINDICATED);
    else if (x->fails >= x->reruns && x->passes >= x->reruns)
        stand(s, CONFIRMED);
    return COUNTED;
}

/* The position above the floor whose sum is nearest to j parts in k + 1 of the whole, the smaller one on a tie. */
static uint32_t pick(const struct search *x, uint32_t j, uint32_t k) {
    u128 at = x->sums[x->n + 1] * j;
    uint32_t low = x->floor + 1, high = x->n;
    while (low < high) {
        uint32_t middle = (low + high) / 2;
        if (x->sums[middle] * (k + 1) >= at)
            high = middle;
        else
            low = middle + 1;
    }
    if (low == x->floor + 1u)
        return low;
    u128 here = x->sums[low] * (k + 1), below = x->sums[low - 1] * (k + 1);
    return at - below <= (here >= at ? here - at : at - here) ? low - 1 : low;
}

/* Where a search is to run next at a moment, or -1. */
static int due(const struct search *x, uint64_t moment) {
    uint32_t from = 0;
    while (from < x->outs && x->out[from].deadline <= moment)
        from++;
    if (x->now.standing == VERIFYING) {
        uint32_t fails = x->fails, passes = x->passes;
        for (uint32_t i = from; i < x->outs; i++)
            ++*(x->out[i].position == x->now.culprit ? &fails : &passes);
        return fails < x->reruns ? x->now.culprit : passes < x->reruns ? x->now.culprit - 1 : -1;
    }
    if (x->outs - from >= x->width)
        return -1;
    for (uint32_t j = 1, last = 0, same = 0;; j++) {
        uint32_t position = pick(x, j, x->width), outs = 0;
        same = position == last ? same + 1 : 0;
        last = position;
        for (uint32_t i = from; i < x->outs; i++)
            outs += x->out[i].position == position;
        if (outs <= same)
            return position;
    }
}

/* -- Replies -- */

static char *put_bytes(char *to, const void *from, size_t length) {
    memcpy(to, from, length);
    return to + length;
}

#define PUT(literal) (to = put_bytes(to, literal, sizeof(literal) - 1))

static char *put_word(char *to, const char *word) { return put_bytes(to, word, strlen(word)); }

static char *put_number(char *to, uint64_t number) {
    char digits[20];
    int i = sizeof digits;
    do
        digits[--i] = '0' + number % 10;
    while (number /= 10);
    return put_bytes(to, digits + i, sizeof digits - i);
}

static char *put_id(char *to, const unsigned char *id) {
    static const char digits[] = "0123456789abcdef";
    for (int i = 0; i < ID; i++) {
        *to++ = digits[id[i] >> 4];
        *to++ = digits[id[i] & 15];
    }
    return to;
}

static char *put_name(char *to, struct kept kept) {
    text from = farm.names + kept.from;
    for (int i = 0; i < kept.length; i++) {
        if (from[i] == '"' || from[i] == '\\')
            *to++ = '\\';
        *to++ = from[i];
    }
    return to;
}

static char *put_standing(char *to, struct stood stood) {
    static const char *const words[] = {
        "searching", "verifying", "confirmed", "vindicated", "no culprit", "inconclusive", "cancelled"
    };
    PUT("\"standing\":\"");
    to = put_word(to, words[stood.standing]);
    *to++ = '"';
    return to;
}

/* The member that names the culprit, with the comma behind it. */
static char *put_culprit(char *to, struct stood stood) {
    if (!is_named(stood))
        return to;
    PUT("\"culprit\":");
    to = put_number(to, stood.culprit);
    *to++ = ',';
    return to;
}

/* The date of a day, by the calendar whose years begin in March. */
static char *put_date(char *to, uint32_t day) {
    uint32_t since = day + 719468, era = since / 146097, of_era = since % 146097;
    uint32_t year = (of_era - of_era / 1460 + of_era / 36524 - of_era / 146096) / 365;
    uint32_t of_year = of_era - (365 * year + year / 4 - year / 100), month = (5 * of_year + 2) / 153;
    uint32_t date[3] = {year + era * 400 + (month >= 10), month < 10 ? month + 3 : month - 9,
        of_year - (153 * month + 2) / 5 + 1};
    to = put_number(to, date[0]);
    for (int i = 1; i < 3; i++) {
        *to++ = '-';
        *to++ = '0' + date[i] / 10;
        *to++ = '0' + date[i] % 10;
    }
    return to;
}

static char *refuse(const char *kind) {
    char *to = reply;
    PUT("{\"refused\":\"");
    to = put_word(to, kind);
    PUT("\"}");
    return to;
}

static char *refuse_field(enum field field) {
    char *to = reply;
    PUT("{\"field\":\"");
    to = put_word(to, field_name[field]);
    PUT("\",\"refused\":\"BadField\"}");
    return to;
}

static char *refuse_open(const char *cause, int count, uint32_t first, uint32_t second) {
    char *to = reply;
    PUT("{\"cause\":\"");
    to = put_word(to, cause);
    PUT("\",\"refused\":\"BadOpen\",\"value\":[");
    if (count > 0)
        to = put_number(to, first);
    if (count > 1) {
        *to++ = ',';
        to = put_number(to, second);
    }
    PUT("]}");
    return to;
}

static char *refuse_key(uint32_t place) {
    char *to = reply;
    PUT("{\"place\":");
    to = put_number(to, place);
    PUT(",\"refused\":\"KeyClash\"}");
    return to;
}

/* The refusal of a number that nothing has, with the member that holds it. */
static char *refuse_number(const char *kind, const char *member, uint32_t number) {
    char *to = refuse(kind) - 1;
    PUT(",\"");
    to = put_word(to, member);
    PUT("\":");
    to = put_number(to, number);
    *to++ = '}';
    return to;
}

static char *reply_to_open(uint32_t s) {
    const struct search *x = &farm.searches[s];
    char *to = reply;
    PUT("{\"budget\":");
    to = put_number(to, x->budget);
    *to++ = ',';
    to = put_culprit(to, x->at_first);
    PUT("\"reply\":\"open\",\"search\":");
    to = put_number(to, s);
    *to++ = ',';
    to = put_standing(to, x->at_first);
    *to++ = '}';
    return to;
}

static char *reply_to_lease(uint32_t number) {
    const struct run *run = &farm.runs[number - 1];
    const struct search *x = &farm.searches[run->search];
    char *to = reply;
    PUT("{\"commit\":\"");
    to = put_id(to, x->commits[run->position]);
    PUT("\",\"deadline\":");
    to = put_number(to, run->deadline);
    PUT(",\"position\":");
    to = put_number(to, run->position);
    PUT(",\"reply\":\"lease\",\"run\":");
    to = put_number(to, number);
    PUT(",\"search\":");
    to = put_number(to, run->search);
    to = put_word(to, run->is_verify ? ",\"stage\":\"verify\",\"test\":\"" : ",\"stage\":\"search\",\"test\":\"");
    to = put_name(to, x->test);
    PUT("\"}");
    return to;
}

static char *reply_to_report(uint32_t number) {
    static const char *const fates[] = {"", "counted", "late", "over"};
    const struct run *run = &farm.runs[number - 1];
    char *to = reply;
    *to++ = '{';
    to = put_culprit(to, run->after);
    PUT("\"fate\":\"");
    to = put_word(to, fates[run->fate]);
    PUT("\",\"reply\":\"report\",\"run\":");
    to = put_number(to, number);
    PUT(",\"search\":");
    to = put_number(to, run->search);
    *to++ = ',';
    to = put_standing(to, run->after);
    to = put_word(to, run->is_fail ? ",\"verdict\":\"fail\"}" : ",\"verdict\":\"pass\"}");
    return to;
}

static char *reply_to_cancel(uint32_t s) {
    char *to = reply;
    PUT("{\"reply\":\"cancel\",\"search\":");
    to = put_number(to, s);
    PUT(",\"standing\":\"cancelled\"}");
    return to;
}

/* The commit of a search's culprit, which stays once it is confirmed. */
static const unsigned char *culprit_of(uint32_t s) {
    const struct search *x = &farm.searches[s];
    return x->commits[x->now.culprit];
}

static char *reply_to_revert(uint32_t number) {
    const struct order *order = &farm.orders[number - 1];
    char *to = reply;
    PUT("{\"commit\":\"");
    to = put_id(to, culprit_of(order->search));
    PUT("\",\"date\":\"");
    to = put_date(to, order->day);
    PUT("\",\"day\":");
    to = put_number(to, order->day);
    PUT(",\"order\":");
    to = put_number(to, number);
    PUT(",\"reply\":\"revert\",\"search\":");
    to = put_number(to, order->search);
    *to++ = '}';
    return to;
}

/* The shares in basis points, by 64 bits where they are enough. */
static char *put_shares(char *to, const struct search *x) {
    u128 whole = x->sums[x->n + 1];
    int is_narrow = whole < UINT64_MAX / BASIS_POINTS;
    uint64_t narrow = whole;
    for (uint32_t i = 1; i <= x->floor; i++)
        PUT("0,");
    for (uint32_t i = x->floor + 1; i <= x->n + 1; i++) {
        u128 weight = x->sums[i] - x->sums[i - 1];
        uint32_t share = is_narrow ? (uint64_t)weight * BASIS_POINTS / narrow : weight * BASIS_POINTS / whole;
        to = put_number(to, share);
        *to++ = ',';
    }
    return to - 1;
}

static char *page_of(uint32_t s) {
    const struct search *x = &farm.searches[s];
    char *to = reply;
    PUT("{\"budget\":");
    to = put_number(to, x->budget);
    if (is_named(x->now)) {
        PUT(",\"commit\":\"");
        to = put_id(to, culprit_of(s));
        *to++ = '"';
    }
    PUT(",\"counted\":");
    to = put_number(to, x->counted);
    *to++ = ',';
    to = put_culprit(to, x->now);
    PUT("\"leases\":");
    to = put_number(to, x->leases);
    PUT(",\"reply\":\"search\",\"search\":");
    to = put_number(to, s);
    PUT(",\"shares\":[");
    to = put_shares(to, x);
    PUT("],");
    to = put_standing(to, x->now);
    PUT(",\"test\":\"");
    to = put_name(to, x->test);
    PUT("\",\"verified\":");
    to = put_number(to, x->verified);
    *to++ = '}';
    return to;
}

static char *farm_page(void) {
    const uint32_t *counts = farm.counts;
    char *to = reply;
    PUT("{\"confirmed\":");
    to = put_number(to, counts[CONFIRMED]);
    PUT(",\"counted\":");
    to = put_number(to, farm.counted);
    PUT(",\"ended\":");
    to = put_number(to, counts[VINDICATED] + counts[NO_CULPRIT] + counts[INCONCLUSIVE] + counts[CANCELLED]);
    PUT(",\"entries\":");
    to = put_number(to, farm.entry_count);
    PUT(",\"orders\":");
    to = put_number(to, farm.order_count);
    PUT(",\"reply\":\"farm\",\"searches\":");
    to = put_number(to, farm.search_count);
    PUT(",\"searching\":");
    to = put_number(to, counts[SEARCHING]);
    PUT(",\"verifying\":");
    to = put_number(to, counts[VERIFYING]);
    *to++ = '}';
    return to;
}

static char *orders_page(void) {
    char *to = reply;
    PUT("{\"orders\":[");
    for (uint32_t i = 0; i < farm.order_count; i++) {
        const struct order *order = &farm.orders[i];
        to = put_word(to, i ? ",{\"agent\":\"" : "{\"agent\":\"");
        to = put_name(to, order->agent);
        PUT("\",\"commit\":\"");
        to = put_id(to, culprit_of(order->search));
        PUT("\",\"date\":\"");
        to = put_date(to, order->day);
        PUT("\",\"order\":");
        to = put_number(to, i + 1);
        PUT(",\"search\":");
        to = put_number(to, order->search);
        *to++ = '}';
    }
    PUT("],\"reply\":\"orders\"}");
    return to;
}

/* -- Commands. Each answers with the end of its reply. -- */

static uint32_t divisor(uint32_t a, uint32_t b) {
    while (b) {
        uint32_t rest = a % b;
        a = b;
        b = rest;
    }
    return a;
}

static void lower(uint32_t *a, uint32_t *b) {
    uint32_t by = divisor(*a, *b);
    *a /= by;
    *b /= by;
}

/* The first position whose commit stands at an earlier one too, or 0. */
static uint32_t repeated(const unsigned char *base) {
    static uint16_t marks[2 * MOST_SUSPECTS + 48]; /* positions from 1, the base's being the first */
    uint32_t room = 64;
    while (room < 2 * (suspect_count + 1))
        room *= 2;
    memset(marks, 0, room * sizeof *marks);
    for (uint32_t i = 0; i <= suspect_count; i++) {
        const unsigned char *id = i ? suspects[i - 1].id : base;
        uint32_t at = mixed_id(id) >> 32 & (room - 1);
        for (; marks[at]; at = (at + 1) & (room - 1))
            if (memcmp(marks[at] > 1 ? suspects[marks[at] - 2].id : base, id, ID) == 0)
                return i;
        marks[at] = i + 1;
    }
    return 0;
}

/* Whether a search is the one that is asked for, its rates in lowest terms. */
static int is_same(const struct search *x, const struct search *asked, struct name test, const unsigned char *base) {
    if (x->n != suspect_count || x->calm != asked->calm || x->a != asked->a || x->b != asked->b || x->c != asked->c
        || x->d != asked->d || x->t != asked->t || x->u != asked->u || x->width != asked->width
        || x->reruns != asked->reruns || !is_kept(x->test, test) || memcmp(x->commits[0], base, ID) != 0)
        return 0;
    for (uint32_t i = 0; i < x->n; i++)
        if (x->weights[i] != suspects[i].weight || memcmp(x->commits[i + 1], suspects[i].id, ID) != 0)
            return 0;
    return 1;
}

static void open_search(struct search asked, struct name test, const unsigned char *base) {
    uint32_t s = ++farm.search_count, n = suspect_count;
    struct search *x = &farm.searches[s];
    *x = asked;
    x->n = n;
    x->test = keep(test);
    x->sums = malloc((n + 2) * sizeof *x->sums + (n + 1) * ID + n * sizeof *x->weights);
    if (!x->sums)
        exit(11);
    x->weights = (uint16_t *)(x->sums + n + 2);
    x->commits = (unsigned char (*)[ID])(x->weights + n);
    memcpy(x->commits[0], base, ID);
    x->sums[0] = 0;
    for (uint32_t i = 1; i <= n; i++) {
        memcpy(x->commits[i], suspects[i - 1].id, ID);
        x->weights[i - 1] = suspects[i - 1].weight;
        x->sums[i] = x->sums[i - 1] + suspects[i - 1].weight;
    }
    x->sums[n + 1] = x->sums[n] + x->calm;
    x->fail_in = (x->d - x->c) * x->b;
    x->fail_out = x->a * x->d;
    lower(&x->fail_in, &x->fail_out);
    x->pass_in = x->c * x->b;
    x->pass_out = (x->b - x->a) * x->d;
    lower(&x->pass_in, &x->pass_out);
    uint32_t greatest = x->fail_in > x->pass_out ? x->fail_in : x->pass_out;
    u128 room = ~(u128)0 / BASIS_POINTS / (uint64_t)x->sums[n + 1] / greatest;
    for (u128 power = 1; power <= room; power *= greatest)
        x->budget++;
    farm.counts[SEARCHING]++;
    put_last(s);
    look_at_bar(s);
    x->at_first = x->now;
}

#define WANT(test, field) do { if (!(test)) return refuse_field(field); } while (0)

static char *do_open(uint64_t at) {
    struct search asked = {.c = 0, .d = 1};
    struct name test;
    unsigned char base[ID];
    u128 key;
    uint32_t width, reruns;
    WANT(is_key(found[KEY], &key), KEY);
    WANT(is_name(found[TEST], &test), TEST);
    WANT(is_commit(found[BASE], base), BASE);
    WANT(are_suspects(found[SUSPECTS]), SUSPECTS);
    WANT(is_small(found[CALM], &asked.calm), CALM);
    WANT(is_fraction(found[RATE], &asked.a, &asked.b), RATE);
    WANT(!found[MISS].from || is_fraction(found[MISS], &asked.c, &asked.d), MISS);
    WANT(is_fraction(found[BAR], &asked.t, &asked.u), BAR);
    WANT(is_small(found[WIDTH], &width), WIDTH);
    WANT(is_small(found[RERUNS], &reruns), RERUNS);
    if (suspect_count == 0)
        return refuse_open("NoSuspects", 0, 0, 0);
    if (suspect_count > MOST_SUSPECTS)
        return refuse_open("TooManySuspects", 1, suspect_count, 0);
    for (uint32_t i = 0; i < suspect_count; i++)
        if (suspects[i].weight < 1 || suspects[i].weight > MOST_WEIGHT)
            return refuse_open("WeightRange", 1, i + 1, 0);
    if (asked.calm < 1 || asked.calm > MOST_CALM)
        return refuse_open("CalmRange", 1, asked.calm, 0);
    uint32_t position = repeated(base);
    if (position)
        return refuse_open("RepeatedCommit", 1, position, 0);
    if (asked.a < 1 || asked.a >= asked.b || asked.b > 1000)
        return refuse_open("Rate", 2, asked.a, asked.b);
    if (asked.c >= asked.d || asked.d > 100 || asked.c * asked.b + asked.a * asked.d >= asked.b * asked.d)
        return refuse_open("Miss", 2, asked.c, asked.d);
    if (asked.u > 10000 || asked.u >= 2 * (uint64_t)asked.t || asked.t >= asked.u)
        return refuse_open("Bar", 2, asked.t, asked.u);
    if (width < 1 || width > MOST_WIDTH)
        return refuse_open("Width", 1, width, 0);
    if (reruns < 1 || reruns > MOST_RERUNS)
        return refuse_open("Reruns", 1, reruns, 0);
    lower(&asked.a, &asked.b);
    lower(&asked.c, &asked.d);
    asked.width = width;
    asked.reruns = reruns;
    uint32_t place = place_of_key(key);
    if (place) {
        const struct entry *e = &farm.entries[place];
        int is_repeat = e->what == OPENED && is_same(&farm.searches[e->number], &asked, test, base);
        return is_repeat ? reply_to_open(e->number) : refuse_key(place);
    }
    if (is_full())
        return refuse("Full");
    if (farm.search_count >= MOST_SEARCHES)
        return refuse("TooManySearches");
    open_search(asked, test, base);
    record(moment_used(at), OPENED, farm.search_count, key);
    return reply_to_open(farm.search_count);
}

static char *do_lease(uint64_t at) {
    struct name worker;
    u128 key;
    WANT(is_key(found[KEY], &key), KEY);
    WANT(is_name(found[WORKER], &worker), WORKER);
    uint32_t place = place_of_key(key);
    if (place) {
        const struct entry *e = &farm.entries[place];
        int is_repeat = e->what == LEASED && is_kept(farm.runs[e->number - 1].worker, worker);
        return is_repeat ? reply_to_lease(e->number) : refuse_key(place);
    }
    if (is_full())
        return refuse("Full");
    uint64_t moment = moment_used(at);
    for (int list = 0; list < 2; list++)
        for (uint32_t s = farm.lists[list].first; s; s = farm.searches[s].after) {
            struct search *x = &farm.searches[s];
            int position = due(x, moment);
            if (position < 0)
                continue;
            uint32_t number = farm.run_count + 1, past = 0;
            farm.runs = grown(farm.runs, number, &farm.run_room, sizeof *farm.runs);
            farm.runs[farm.run_count++] = (struct run){.deadline = moment + LEASE_MS, .search = s,
                .worker = keep(worker), .position = position, .is_verify = x->now.standing == VERIFYING};
            while (past < x->outs && x->out[past].deadline <= moment)
                past++;
            memmove(x->out, x->out + past, (x->outs -= past) * sizeof *x->out);
            x->out[x->outs++] = (struct out){moment + LEASE_MS, number, position};
            take_out(s);
            x->leases++;
            put_last(s);
            record(moment, LEASED, number, key);
            return reply_to_lease(number);
        }
    return refuse("NoRun");
}

static char *do_report(uint64_t at) {
    uint32_t number;
    struct name verdict;
    WANT(is_ordinal(found[RUN], &number), RUN);
    WANT(is_text(found[VERDICT], &verdict) && (is_word(verdict, "pass") || is_word(verdict, "fail")), VERDICT);
    struct run *run = number <= farm.run_count ? &farm.runs[number - 1] : NULL;
    if (run && run->fate)
        return reply_to_report(number);
    if (is_full())
        return refuse("Full");
    if (!run)
        return refuse_number("UnknownRun", "run", number);
    struct search *x = &farm.searches[run->search];
    run->is_fail = verdict.from[0] == 'f';
    for (uint32_t i = 0; i < x->outs; i++)
        if (x->out[i].run == number) {
            memmove(&x->out[i], &x->out[i + 1], (--x->outs - i) * sizeof *x->out);
            break;
        }
    if (x->now.standing != (run->is_verify ? VERIFYING : SEARCHING))
        run->fate = LATE;
    else
        run->fate = (run->is_verify ? count_rerun : count_run)(run->search, run->position, run->is_fail);
    farm.counted += run->fate == COUNTED;
    run->after = x->now;
    record(moment_used(at), REPORTED, number, 0);
    return reply_to_report(number);
}

static char *do_cancel(uint64_t at) {
    u128 key;
    uint32_t s;
    WANT(is_key(found[KEY], &key), KEY);
    WANT(is_ordinal(found[SEARCH], &s), SEARCH);
    uint32_t place = place_of_key(key);
    if (place) {
        const struct entry *e = &farm.entries[place];
        return e->what == CANCELED && e->number == s ? reply_to_cancel(s) : refuse_key(place);
    }
    if (is_full())
        return refuse("Full");
    if (s > farm.search_count)
        return refuse_number("UnknownSearch", "search", s);
    struct stood now = farm.searches[s].now;
    if (!is_active(now)) {
        char *to = reply;
        *to++ = '{';
        to = put_culprit(to, now);
        PUT("\"refused\":\"SearchEnded\",");
        to = put_standing(to, now);
        *to++ = '}';
        return to;
    }
    stand(s, CANCELLED);
    record(moment_used(at), CANCELED, s, key);
    return reply_to_cancel(s);
}

/* The slot of a commit among those that have orders: that of its order, or a free one. */
static uint16_t *order_of(const unsigned char *commit) {
    uint32_t i = mixed_id(commit) >> 32 & (SLOTS - 1);
    while (farm.ordered[i] && memcmp(culprit_of(farm.orders[farm.ordered[i] - 1].search), commit, ID) != 0)
        i = (i + 1) & (SLOTS - 1);
    return &farm.ordered[i];
}

/* The first confirmed search whose commit has no order, or 0. */
static uint32_t first_waiting(void) {
    for (size_t i = 0; i < sizeof farm.waiting / sizeof farm.waiting[0]; i++)
        while (farm.waiting[i]) {
            uint32_t s = 64 * i + __builtin_ctzll(farm.waiting[i]);
            if (!*order_of(culprit_of(s)))
                return s;
            farm.waiting[i] &= farm.waiting[i] - 1;
        }
    return 0;
}

static char *do_revert(uint64_t at) {
    struct name agent;
    u128 key;
    WANT(is_key(found[KEY], &key), KEY);
    WANT(is_name(found[AGENT], &agent), AGENT);
    uint32_t place = place_of_key(key);
    if (place) {
        const struct entry *e = &farm.entries[place];
        int is_repeat = e->what == ORDERED && is_kept(farm.orders[e->number - 1].agent, agent);
        return is_repeat ? reply_to_revert(e->number) : refuse_key(place);
    }
    if (is_full())
        return refuse("Full");
    uint32_t s = first_waiting();
    if (!s)
        return refuse("NoRevert");
    uint64_t moment = moment_used(at);
    uint32_t day = moment / DAY_MS, count = day == farm.day ? farm.day_count : 0;
    if (count >= DAILY) {
        char *to = reply;
        PUT("{\"count\":");
        to = put_number(to, count);
        PUT(",\"day\":");
        to = put_number(to, day);
        PUT(",\"refused\":\"DailyLimit\"}");
        return to;
    }
    farm.day = day;
    farm.day_count = count + 1;
    farm.orders = grown(farm.orders, farm.order_count + 1, &farm.order_room, sizeof *farm.orders);
    farm.orders[farm.order_count] = (struct order){s, day, keep(agent)};
    *order_of(culprit_of(s)) = ++farm.order_count;
    record(moment, ORDERED, farm.order_count, key);
    return reply_to_revert(farm.order_count);
}

static char *do_search(void) {
    uint32_t s;
    WANT(is_ordinal(found[SEARCH], &s), SEARCH);
    return s <= farm.search_count ? page_of(s) : refuse_number("UnknownSearch", "search", s);
}

static char *answer(text from, text end) {
    uint64_t at;
    struct name asked;
    if (end - from > LONGEST)
        return refuse("TooLong");
    if (!is_object(from, end))
        return refuse("BadJson");
    WANT(is_whole(found[AT], &at) && at >= DAY_MS && at <= LAST_MS, AT);
    WANT(is_text(found[DO], &asked), DO);
    if (is_word(asked, "search"))
        return do_search();
    if (is_word(asked, "lease"))
        return do_lease(at);
    if (is_word(asked, "report"))
        return do_report(at);
    if (is_word(asked, "open"))
        return do_open(at);
    if (is_word(asked, "cancel"))
        return do_cancel(at);
    if (is_word(asked, "revert"))
        return do_revert(at);
    if (is_word(asked, "farm"))
        return farm_page();
    return is_word(asked, "orders") ? orders_page() : refuse_field(DO);
}

static void answer_line(unsigned char *from, unsigned char *end) {
    *end = 0;
    char *to = answer(from, end);
    *to++ = '\n';
    for (const char *p = reply; p < to;) {
        ssize_t put = write(1, p, to - p);
        if (put < 0)
            exit(4);
        p += put;
    }
}

int main(void) {
    size_t held = 0;
    ssize_t got;
    make_tables();
    found_farm();
    while ((got = read(0, input + held, PIECE)) > 0) {
        unsigned char *from = input, *look = input + held, *end = look + got, *stop;
        for (; (stop = memchr(look, '\n', end - look)); look = from = stop + 1)
            answer_line(from, stop);
        held = end - from;
        if (held > LONGEST)
            held = LONGEST + 1; /* enough to see that it is too long */
        memmove(input, from, held);
    }
    if (got < 0)
        return 3;
    if (held)
        answer_line(input, input + held);
    return 0;
}
