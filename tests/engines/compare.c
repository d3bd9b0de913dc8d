/* The two engines of the heartbeat rule against each other, on heartbeats that are made up from a seed:
 *   compare HEARTBEATS SEED
 * Each heartbeat goes to both, with a node and a slot table of its own; the answer, the node's epochs and roles and the table have to
 * be the same. Ends with status 1 at the first difference, and says which it was. Links libengines.a; tests/engines/run builds it. */
#include <inttypes.h>
#include <stdbool.h>
#include <stdio.h>
#include <stdlib.h>
#include <string.h>

enum { NODES = 64, EPOCHS = NODES + 1, SLOTS = 16384, BITMAP = SLOTS / 8, UNOWNED = 65535 };

static const uint64_t TOP = INT64_MAX;

/* A slice is passed as its first element and its length, an array as its first element. */
typedef uint64_t engine(uint64_t *epochs, uint16_t *roles, uint16_t *slots, size_t slots_length, const uint8_t *bitmap,
                        size_t bitmap_length, uint16_t size, uint16_t me, uint8_t sender, uint16_t role, uint64_t config,
                        size_t times);

engine ukweribaso_heartbeats;
engine ukweribaso_heartbeats_plain;

/* ---- numbers from a seed */

static uint64_t word;

static void start(uint64_t seed)
{
    word = seed * 0x9e3779b97f4a7c15 + 0x2545f4914f6cdd1d;
    if (word == 0) word = 1;
}

static uint64_t next(void)
{
    word ^= word << 13;
    word ^= word >> 7;
    word ^= word << 17;
    return word * 0x2545f4914f6cdd1d;
}

static uint64_t below(uint64_t end)
{
    return (next() >> 11) % end;
}

static bool once_in(uint64_t n)
{
    return below(n) == 0;
}

/* ---- a node, its table and a heartbeat */

struct node {
    uint64_t epochs[EPOCHS];
    uint16_t roles[NODES];
    uint16_t slots[SLOTS];
};

struct heartbeat {
    uint8_t bitmap[BITMAP];
    size_t slots_length, bitmap_length, times;
    uint16_t size, me, role;
    uint8_t sender;
    uint64_t config;
};

/* Few numbers, so that equal epochs are met often; now and then the greatest, and one past it. */
static uint64_t some_epoch(void)
{
    return once_in(40) ? TOP + 1 - below(3) : below(6);
}

/* Mostly masters. */
static uint16_t some_role(uint16_t size)
{
    if (!once_in(4)) return 0;
    return once_in(20) ? (uint16_t)next() : (uint16_t)(below(size + 1u) + 1);
}

/* A number of the roster, or now and then one past it, often the first. */
static uint16_t some_node(uint16_t size, uint64_t seldom)
{
    if (size != 0 && !once_in(seldom)) return (uint16_t)below(size);
    return once_in(2) ? size : (uint16_t)below(256);
}

static size_t some_length(size_t most)
{
    return once_in(12) ? below(most + 1) : most;
}

static void make_node(struct node *n, uint16_t size)
{
    for (int k = 0; k < NODES; k++) {
        n->epochs[k] = some_epoch();
        n->roles[k] = some_role(size);
    }
    n->epochs[NODES] = once_in(10) ? TOP - below(2) : below(8);
}

static uint16_t some_owner(uint16_t size)
{
    switch (below(8)) {
    case 0: return UNOWNED;
    case 1: return (uint16_t)(size + below(8));
    case 2: return (uint16_t)next();
    default: return some_node(size, 50);
    }
}

/* All unowned, all of one node, often the sender, the sender's in stretches, dealt out in ranges or in turn, or each by itself. */
static void make_table(uint16_t *slots, uint16_t size, uint16_t sender)
{
    uint64_t kind = below(6);
    uint16_t nodes = size == 0 ? 1 : size, one = once_in(2) ? sender : some_owner(size);
    int stretch = 1 + (int)below(300), own = (int)below((uint64_t)stretch + 1);
    for (int s = 0; s < SLOTS; s++) {
        switch (kind) {
        case 0: slots[s] = UNOWNED; break;
        case 1: slots[s] = one; break;
        case 2: slots[s] = (uint16_t)(s * nodes / SLOTS); break;
        case 3: slots[s] = (uint16_t)(s % nodes); break;
        case 4: slots[s] = s % stretch < own ? sender : some_owner(size); break;
        default: slots[s] = some_owner(size);
        }
    }
}

/* Full, empty, striped, random, sparse, or one range. */
static void make_bitmap(uint8_t *bitmap)
{
    uint64_t kind = below(6);
    size_t from = below(BITMAP), to = from + below(BITMAP);
    uint8_t stripe = (uint8_t)next();
    for (size_t b = 0; b < BITMAP; b++) {
        switch (kind) {
        case 0: bitmap[b] = 0xff; break;
        case 1: bitmap[b] = 0; break;
        case 2: bitmap[b] = stripe; break;
        case 3: bitmap[b] = (uint8_t)next(); break;
        case 4: bitmap[b] = once_in(100) ? (uint8_t)(1u << below(8)) : 0; break;
        default: bitmap[b] = from <= b && b < to ? 0xff : 0;
        }
    }
}

/* The configEpoch is often this node's own, so that there are ties. */
static uint64_t some_config(const struct node *n, uint16_t me)
{
    return me < NODES && once_in(3) ? n->epochs[me] : some_epoch();
}

static void make(struct node *n, struct heartbeat *h)
{
    h->size = (uint16_t)below(67);
    h->me = some_node(h->size, 15);
    make_node(n, h->size);
    h->sender = (uint8_t)some_node(h->size, 15);
    make_table(n->slots, h->size, h->sender);
    make_bitmap(h->bitmap);
    h->slots_length = some_length(SLOTS);
    h->bitmap_length = some_length(BITMAP);
    h->role = once_in(6) ? some_role(h->size) : 0;
    h->config = some_config(n, h->me);
    h->times = 1 + below(3);
}

static uint64_t hand(engine *to, struct node *n, const struct heartbeat *h)
{
    return to(n->epochs, n->roles, n->slots, h->slots_length, h->bitmap, h->bitmap_length, h->size, h->me, h->sender, h->role,
              h->config, h->times);
}

/* ---- what came of it */

/* Of the heartbeats that were the same, how many did what. */
struct counts {
    uint64_t same, bound, rebound, stale, epoch;
};

/* Whether some slot changed that was owned by a node of the roster, or by none. */
static bool passed(const struct node *before, const struct node *after, uint16_t size, bool owned)
{
    for (int s = 0; s < SLOTS; s++) {
        if (before->slots[s] != after->slots[s] && (before->slots[s] < size) == owned) return true;
    }
    return false;
}

/* The stale slot of the last answer, counted from 1, stands above its two counts of 16 bits. */
static void count(struct counts *c, const struct node *before, const struct node *after, uint16_t size, uint64_t digest)
{
    c->same++;
    c->bound += passed(before, after, size, false);
    c->rebound += passed(before, after, size, true);
    c->stale += digest >> 32 != 0;
    c->epoch += before->epochs[NODES] != after->epochs[NODES];
}

static bool differ(const char *what, int place, uint64_t fast, uint64_t plain)
{
    if (fast == plain) return false;
    fprintf(stderr, "engines: %s %d is %" PRIu64 " by the fast engine and %" PRIu64 " by the plain one", what, place, fast, plain);
    return true;
}

/* The first difference, told: of the answers, by their numbers of 16 bits, or of what the two leave. */
static bool differs(const struct node *fast, const struct node *plain, uint64_t by_fast, uint64_t by_plain)
{
    for (int k = 0; k < 3; k++) {
        if (differ("the answer's number", k, by_fast >> 16 * k & 0xffff, by_plain >> 16 * k & 0xffff)) return true;
    }
    for (int k = 0; k < EPOCHS; k++) {
        if (differ("epoch", k, fast->epochs[k], plain->epochs[k])) return true;
    }
    for (int k = 0; k < NODES; k++) {
        if (differ("role", k, fast->roles[k], plain->roles[k])) return true;
    }
    for (int s = 0; s < SLOTS; s++) {
        if (differ("the entry of slot", s, fast->slots[s], plain->slots[s])) return true;
    }
    return false;
}

static bool same(struct counts *c)
{
    static struct node first, fast, plain;
    static struct heartbeat h;
    make(&first, &h);
    fast = first;
    plain = first;
    uint64_t by_fast = hand(ukweribaso_heartbeats, &fast, &h);
    uint64_t by_plain = hand(ukweribaso_heartbeats_plain, &plain, &h);
    if (differs(&fast, &plain, by_fast, by_plain)) return false;
    count(c, &first, &fast, h.size, by_fast);
    return true;
}

static uint64_t number(const char *word)
{
    size_t digits = strspn(word, "0123456789");
    if (digits == 0 || digits > 18 || word[digits] != 0) {
        fprintf(stderr, "engines: '%s' is no number of at most 18 digits\n", word);
        exit(2);
    }
    return strtoull(word, NULL, 10);
}

int main(int argc, char **argv)
{
    if (argc != 3) {
        fputs("usage: compare HEARTBEATS SEED\n", stderr);
        return 2;
    }
    uint64_t heartbeats = number(argv[1]), seed = number(argv[2]);
    struct counts c = {0};
    start(seed);
    for (uint64_t i = 1; i <= heartbeats; i++) {
        if (!same(&c)) {
            fprintf(stderr, ", at heartbeat %" PRIu64 "; again: tests/engines/run %" PRIu64 " %" PRIu64 "\n", i, i, seed);
            return 1;
        }
    }
    printf("engines, seed %" PRIu64 ": %" PRIu64 " heartbeats the same; of these %" PRIu64 " bound slots, %" PRIu64 " rebound slots, %" PRIu64
           " came from a stale sender, and after %" PRIu64 " this node took a new epoch\n",
           seed, c.same, c.bound, c.rebound, c.stale, c.epoch);
    return 0;
}
