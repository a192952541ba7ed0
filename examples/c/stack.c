/*
 * Measures how much stack each call takes and holds it to the figures PAS_STACK_... of include/pas.h: the exit status
 * is 1 where a call takes more.
 *
 * Each call has a process of its own, and in it a thread with 64 KB of stack, which the header says will do. Before a
 * call the free part of that stack is painted, and after it the lowest byte that lost its paint says how deep the call
 * went. All that the call puts on the stack counts: its return address, its frames, those of memcpy and memset, and in
 * the first call those of the dynamic linker, which then looks the two up. The sheets are the largest ones, refused
 * ones and random ones from a fixed seed, of both versions, in version 2 with the conditions in order and out of it.
 * Floors are 0, any, as high as they may be, too many and too high. Top-of-page terms, rivals and groups are the
 * largest, random ones and refused ones.
 *
 * This file calls neither memcpy nor memset, so that they are looked up in the first call that is measured (the script
 * `stack` sees to it).
 */
#include <inttypes.h>
#include <pthread.h>
#include <stdio.h>
#include <stdlib.h>
#include <sys/wait.h>
#include <unistd.h>

#include "pas.h"

enum { STACK = 64 * 1024, ROUNDS = 4000 };

/* ---- Sheets ---- */

struct sheet {
    uint8_t bytes[PAS_MAX_SHEET_LENGTH + 8];
    size_t length;
};

static uint64_t seed = 88172645463325252u;

/* a number from low to high (xorshift) */
static uint32_t between(uint32_t low, uint32_t high) {
    seed ^= seed << 13;
    seed ^= seed >> 7;
    seed ^= seed << 17;
    return low + (uint32_t)(seed % ((uint64_t)(high - low) + 1));
}

static void put(struct sheet *sheet, uint32_t number, int bytes) {
    for (int i = 0; i < bytes; i++) {
        sheet->bytes[sheet->length++] = (uint8_t)(number >> (8 * i));
    }
}

/* what a sheet's conditions are like */
enum manner { PAIRS, ON_OTHERS, ON_OWN_PLACES, MIXED, ABOVE_RIVALS, MANNERS };

/* a condition; the other bidder is always the next one */
struct condition {
    uint32_t owner, own_place, others_place;
};

/* a condition that no rule refuses; with one bidder only its own place can be named */
static struct condition draw(uint32_t n, uint32_t m, enum manner manner) {
    if (manner == MIXED) {
        manner = (enum manner)between(PAIRS, ON_OWN_PLACES);
    }
    struct condition drawn = {between(1, n), between(1, m), between(1, m)};
    if (n == 1 || manner == ON_OWN_PLACES) {
        drawn.others_place = 0;
    } else if (manner == ON_OTHERS) {
        drawn.own_place = 0;
    }
    return drawn;
}

static void put_condition(struct sheet *sheet, uint32_t n, struct condition of) {
    uint32_t other = of.others_place ? of.owner % n + 1 : 0;
    put(sheet, of.owner | of.own_place << 8 | other << 16 | of.others_place << 24, 4);
}

/* c conditions as they come */
static void put_any(struct sheet *sheet, uint32_t n, uint32_t m, uint32_t c, enum manner manner) {
    for (uint32_t i = 0; i < c; i++) {
        put_condition(sheet, n, draw(n, m, manner));
    }
}

/* whether a condition is wanted, by owner, own place and other's place; between two sheets none is */
static uint8_t wanted[PAS_MAX_BIDDERS + 1][PAS_MAX_PLACES + 1][PAS_MAX_PLACES + 1];

/* c different conditions in order, fewer where hardly more are found; how many */
static uint32_t put_in_order(struct sheet *sheet, uint32_t n, uint32_t m, uint32_t c, enum manner manner) {
    uint32_t found = 0;
    for (uint32_t tried = 0; found < c && tried < 8 * c; tried++) {
        struct condition of = draw(n, m, manner);
        found += !wanted[of.owner][of.own_place][of.others_place];
        wanted[of.owner][of.own_place][of.others_place] = 1;
    }
    struct condition at;
    for (at.owner = 1; at.owner <= n; at.owner++) {
        for (at.own_place = 0; at.own_place <= m; at.own_place++) {
            for (at.others_place = 0; at.others_place <= m; at.others_place++) {
                if (wanted[at.owner][at.own_place][at.others_place]) {
                    wanted[at.owner][at.own_place][at.others_place] = 0;
                    put_condition(sheet, n, at);
                }
            }
        }
    }
    return found;
}

/*
 * whole lists of bidders that stand only above the next one, as many as c conditions have room for, in order or from
 * the last owner to the first; how many conditions
 */
static uint32_t put_lists(struct sheet *sheet, uint32_t n, uint32_t m, uint32_t c, int in_order) {
    uint32_t pairs = m * (m - 1) / 2;
    uint32_t room = n == 1 || pairs == 0 ? 0 : c / pairs;
    uint32_t owners = room < n ? room : n;
    for (uint32_t i = 1; i <= owners; i++) {
        struct condition of = {in_order ? i : owners + 1 - i, 0, 0};
        for (of.own_place = 2; of.own_place <= m; of.own_place++) {
            for (of.others_place = 1; of.others_place < of.own_place; of.others_place++) {
                put_condition(sheet, n, of);
            }
        }
    }
    return owners * pairs;
}

/* the ticks of the sheets; 0 stands for none, which is version 1 */
static const uint32_t ticks[] = {0, 1, 7, PAS_MAX_TICK};

enum { TICKS = sizeof ticks / sizeof ticks[0] };

/* a sheet that no rule refuses, with bids up to `bid` and effects that fall from the largest one */
static void make(struct sheet *sheet, uint32_t tick, uint32_t n, uint32_t m, uint32_t c, uint32_t bid,
                 enum manner manner) {
    sheet->length = 0;
    put(sheet, 'P' | 'A' << 8 | 'S' << 16, 3);
    put(sheet, tick ? 2 : 1, 2);
    put(sheet, n, 1);
    put(sheet, m, 1);
    put(sheet, c, 2);
    if (tick) {
        put(sheet, tick, 4);
    }
    uint32_t effect = PAS_MAX_EFFECT;
    for (uint32_t k = 0; k < m; k++) {
        put(sheet, effect, 4);
        effect -= between(0, effect / 2);
    }
    for (uint32_t i = 0; i < n; i++) {
        put(sheet, tick ? tick * between(0, bid / tick) : between(0, bid), 4);
    }
    if (manner == ABOVE_RIVALS) {
        c = put_lists(sheet, n, m, c, tick != 0);
    } else if (tick) {
        c = put_in_order(sheet, n, m, c, manner);
    } else {
        put_any(sheet, n, m, c, manner);
    }
    sheet->bytes[7] = (uint8_t)c;
    sheet->bytes[8] = (uint8_t)(c >> 8);
}

/* one condition of a sheet takes the place of another: in version 2 they are out of order then, but for a few */
static void disorder(struct sheet *sheet) {
    uint32_t c = sheet->bytes[7] | (uint32_t)sheet->bytes[8] << 8;
    if (c < 2) {
        return;
    }
    uint8_t *last = sheet->bytes + sheet->length - 4;
    const uint8_t *other = last - 4 * (size_t)between(1, c - 1);
    for (int i = 0; i < 4; i++) {
        last[i] = other[i];
    }
}

/*
 * the sheets by number: the largest first, then 8 by 8, then random sizes; every fourth one is damaged, and every 16th
 * has its conditions in disorder
 */
static void make_numbered(struct sheet *sheet, uint32_t number) {
    enum manner manner = (enum manner)(number / 2 % MANNERS);
    uint32_t bid = number % 3 ? PAS_MAX_BID : number % 2;
    uint32_t tick = ticks[number / 8 % TICKS];
    if (number < ROUNDS / 4) {
        make(sheet, tick, PAS_MAX_BIDDERS, PAS_MAX_PLACES, PAS_MAX_CONDITIONS, bid, manner);
    } else if (number < ROUNDS / 2) {
        uint32_t most = number % 2 ? PAS_MAX_CONDITIONS : 24;
        make(sheet, tick, PAS_MAX_BEST_BIDDERS, PAS_MAX_BEST_PLACES, between(0, most), bid, manner);
    } else {
        uint32_t n = between(1, PAS_MAX_BIDDERS);
        uint32_t m = between(1, PAS_MAX_PLACES);
        make(sheet, tick, n, m, between(0, PAS_MAX_CONDITIONS), bid, manner);
    }
    if (number % 4 == 3) {
        /* a byte of the last condition or of the last bid, else one anywhere */
        size_t at = number % 8 == 3 ? sheet->length - between(1, 4) : between(0, (uint32_t)sheet->length - 1);
        sheet->bytes[at] = (uint8_t)between(0, 255);
    }
    if (number % 16 == 1) {
        disorder(sheet);
    }
}

/* a count that stands in a sheet, or where that is damaged and no sheet can have it, the nearest that one can */
static uint32_t count_near(uint8_t byte, uint32_t most) {
    return byte == 0 ? 1 : byte > most ? most : byte;
}

/* ---- Floors ---- */

struct floors {
    uint32_t numbers[PAS_MAX_PLACES + 1];
    size_t count;
};

/* the floors by number, for m places: of every eight lists one has a floor too many and one a floor that is too high */
static void make_floors(struct floors *floors, uint32_t number, uint32_t m) {
    static const uint32_t highest[] = {0, PAS_MAX_FLOOR / 2, PAS_MAX_FLOOR};
    uint32_t most = highest[number / 8 % 3];
    uint32_t least = number % 2 ? most : 0;
    floors->count = (m > PAS_MAX_PLACES ? PAS_MAX_PLACES : m) + (number % 8 == 5);
    for (size_t k = 0; k < floors->count; k++) {
        floors->numbers[k] = between(least, most);
    }
    if (number % 8 == 6) {
        floors->numbers[0] = PAS_MAX_FLOOR + 1;
    }
}

/* ---- Top-of-page terms ---- */

struct terms {
    uint32_t n, m, owner, limit;
    uint8_t bars[PAS_MAX_BIDDERS + 1];
    size_t count;
};

/*
 * the terms by number: the largest first, then random ones; of every eight one has a limit too high, one a bar too
 * many, one a bar too high and one a bar against the owner
 */
static void make_terms(struct terms *terms, uint32_t number) {
    int largest = number < ROUNDS / 4;
    terms->n = largest ? PAS_MAX_BIDDERS : between(1, PAS_MAX_BIDDERS);
    terms->m = largest ? PAS_MAX_PLACES : between(1, PAS_MAX_PLACES);
    terms->owner = between(1, terms->n);
    terms->limit = number % 8 == 1 ? terms->m + 1 : largest ? 1 : between(1, terms->m);
    terms->count = terms->n + (number % 8 == 3);
    for (size_t i = 0; i < terms->count; i++) {
        terms->bars[i] = (uint8_t)(largest ? terms->m : between(0, terms->m));
    }
    terms->bars[terms->owner - 1] = number % 8 == 7;
    if (number % 8 == 5) {
        terms->bars[between(0, terms->n - 1)] = PAS_MAX_PLACES + 1;
    }
}

/* ---- Rivals ---- */

struct rivals {
    uint32_t n, m, owner;
    uint8_t set[PAS_MAX_BIDDERS];
    size_t count;
};

/* a set of all the bidders from 1 to n but one, or of some of them; how many */
static size_t put_bidders(uint8_t *set, uint32_t n, uint32_t left_out, int all) {
    size_t count = 0;
    for (uint32_t b = 1; b <= n; b++) {
        if (b != left_out && (all || between(0, 1))) {
            set[count++] = (uint8_t)b;
        }
    }
    return count;
}

/*
 * the rivals by number: the longest list first, of 13 rivals with 13 places, then random ones; of every eight one has a
 * number too high and one the owner, and where there are many places many have too many conditions
 */
static void make_rivals(struct rivals *rivals, uint32_t number) {
    int longest = number < ROUNDS / 4;
    rivals->n = longest ? 14 : between(1, PAS_MAX_BIDDERS);
    rivals->m = longest ? 13 : between(1, PAS_MAX_PLACES);
    rivals->owner = between(1, rivals->n);
    rivals->count = put_bidders(rivals->set, rivals->n, rivals->owner, longest);
    if (rivals->count && number % 8 == 1) {
        rivals->set[rivals->count - 1] = (uint8_t)(rivals->n + 1);
    }
    if (rivals->count && number % 8 == 3) {
        rivals->set[rivals->count - 1] = (uint8_t)rivals->owner;
    }
}

struct group {
    uint32_t n, m;
    uint8_t members[PAS_MAX_BIDDERS];
    size_t members_count;
    uint8_t sets[PAS_MAX_BIDDERS * PAS_MAX_BIDDERS];
    size_t sets_length;
};

/*
 * the groups by number: 16 members of 64 bidders first, then random ones. In every other group each bidder names those
 * with a higher number, so that they can stand in that order, and else whom it likes; of every eight one has numbers
 * too high, one has bidders in their own sets, and one ends a byte too early
 */
static void make_group(struct group *group, uint32_t number) {
    int largest = number < ROUNDS / 4;
    group->n = largest ? PAS_MAX_BIDDERS : between(1, PAS_MAX_BIDDERS);
    group->m = largest ? PAS_MAX_PLACES : between(1, PAS_MAX_PLACES);
    uint32_t most = group->n < group->m ? group->n : group->m;
    group->members_count = put_bidders(group->members, largest ? most : between(0, most), 0, largest);
    group->sets_length = 0;
    for (uint32_t b = 1; b <= group->n; b++) {
        uint8_t *length = &group->sets[group->sets_length++];
        uint8_t *set = length + 1;
        size_t count = 0;
        if (number % 2) {
            count = put_bidders(set, group->n, b, largest);
        } else {
            for (uint32_t rival = b + 1; rival <= group->n; rival++) {
                set[count++] = (uint8_t)rival;
            }
        }
        if (count && number % 8 == 1) {
            set[count - 1] = (uint8_t)(group->n + 1);
        }
        if (count && number % 8 == 3) {
            set[count - 1] = (uint8_t)b;
        }
        *length = (uint8_t)count;
        group->sets_length += count;
    }
    group->sets_length -= number % 8 == 5;
}

/* ---- The stack ---- */

/* the lowest byte of the thread's stack */
static uint8_t *stack;

static int find_stack(void) {
    pthread_attr_t attributes;
    void *lowest;
    size_t size;
    if (pthread_getattr_np(pthread_self(), &attributes) != 0 ||
        pthread_attr_getstack(&attributes, &lowest, &size) != 0) {
        return 0;
    }
    stack = lowest;
    return 1;
}

static inline __attribute__((always_inline)) uint8_t *stack_pointer(void) {
    uint8_t *at;
    __asm__ volatile("mov %%rsp, %0" : "=r"(at));
    return at;
}

/* paints what lies below the caller's stack pointer, and gives that */
static inline __attribute__((always_inline)) uint8_t *paint(uint8_t colour) {
    uint8_t *top = stack_pointer();
    for (volatile uint8_t *at = stack; at < top; at++) {
        *at = colour;
    }
    return top;
}

/* how far below the top the lowest byte lies that has lost its colour */
static inline __attribute__((always_inline)) size_t depth_below(const uint8_t *top, uint8_t colour) {
    const volatile uint8_t *at = stack;
    while (at < top && *at == colour) {
        at++;
    }
    return (size_t)(top - at);
}

/* ---- The calls ---- */

/* the calls' own data lie outside the stack that is painted */
static struct sheet sheet, truth;
static struct floors floors;
static struct terms terms;
static struct rivals rivals;
static struct group group;
static uint8_t result[PAS_MAX_RESULT_LENGTH];
static uint8_t canonical_sheet[PAS_MAX_SHEET_LENGTH];
static uint8_t conditions[PAS_MAX_TERMS_LENGTH];
static uint8_t answer;
static int64_t gain;
static uint64_t total;
static size_t start, length, written;
static uint32_t bidder, worth, count, factor;
static uint32_t number;

/* the depth of one call, which leaves its number in `number` */
#define MEASURED(name, call)                                                                                           \
    static __attribute__((noinline)) size_t name(uint8_t colour) {                                                     \
        uint8_t *top = paint(colour);                                                                                  \
        number = (call);                                                                                               \
        return depth_below(top, colour);                                                                               \
    }

MEASURED(check, pas_check(sheet.bytes, sheet.length))
MEASURED(play, pas_play(sheet.bytes, sheet.length, result, sizeof result))
MEASURED(downward, pas_downward(sheet.bytes, sheet.length, bidder, &answer))
MEASURED(gain_of, pas_gain(sheet.bytes, sheet.length, truth.bytes, truth.length, bidder, worth, &gain))
MEASURED(best, pas_best(sheet.bytes, sheet.length, result, sizeof result, &total))
MEASURED(owner_part, pas_owner_part(sheet.bytes, sheet.length, bidder, &start, &length))
MEASURED(play_floors,
         pas_play_floors(sheet.bytes, sheet.length, floors.numbers, floors.count, result, sizeof result))
MEASURED(gain_floors, pas_gain_floors(sheet.bytes, sheet.length, floors.numbers, floors.count, truth.bytes,
                                      truth.length, bidder, worth, &gain))
MEASURED(best_floors,
         pas_best_floors(sheet.bytes, sheet.length, floors.numbers, floors.count, result, sizeof result, &total))
MEASURED(canonical, pas_canonical(sheet.bytes, sheet.length, canonical_sheet, sizeof canonical_sheet, &written))
MEASURED(slot_terms, pas_slot_terms(terms.n, terms.m, terms.owner, terms.limit, terms.bars, terms.count, conditions,
                                    sizeof conditions, &count))
MEASURED(above_terms, pas_above_terms(rivals.n, rivals.m, rivals.owner, rivals.set, rivals.count, conditions,
                                      sizeof conditions, &count))
MEASURED(share_page, pas_share_page(group.n, group.m, group.members, group.members_count, group.sets, group.sets_length,
                                    result, sizeof result, &answer))
MEASURED(loss_bound, pas_loss_bound(sheet.bytes, sheet.length, &factor))

static const struct call {
    const char *name;
    size_t (*measured)(uint8_t colour);
    size_t promised;
} calls[] = {
    {"pas_check", check, PAS_STACK_CHECK},
    {"pas_play", play, PAS_STACK_PLAY},
    {"pas_downward", downward, PAS_STACK_DOWNWARD},
    {"pas_gain", gain_of, PAS_STACK_GAIN},
    {"pas_best", best, PAS_STACK_BEST},
    {"pas_owner_part", owner_part, PAS_STACK_OWNER_PART},
    {"pas_play_floors", play_floors, PAS_STACK_PLAY_FLOORS},
    {"pas_gain_floors", gain_floors, PAS_STACK_GAIN_FLOORS},
    {"pas_best_floors", best_floors, PAS_STACK_BEST_FLOORS},
    {"pas_canonical", canonical, PAS_STACK_CANONICAL},
    {"pas_slot_terms", slot_terms, PAS_STACK_SLOT_TERMS},
    {"pas_above_terms", above_terms, PAS_STACK_ABOVE_TERMS},
    {"pas_share_page", share_page, PAS_STACK_SHARE_PAGE},
    {"pas_loss_bound", loss_bound, PAS_STACK_LOSS_BOUND},
};

enum { CALLS = sizeof calls / sizeof calls[0] };

/* what is found of one call */
struct found {
    size_t first, later;
    uint32_t accepted, refused;
};

static struct found found;

/* a byte that happens to be written in the paint's own colour is seen with the other one */
static void measure_later(const struct call *call) {
    static const uint8_t colours[] = {0xa5, 0x5a};
    for (size_t i = 0; i < sizeof colours; i++) {
        size_t depth = call->measured(colours[i]);
        found.later = depth > found.later ? depth : found.later;
    }
    found.accepted += number == PAS_OK;
    found.refused += number != PAS_OK;
}

static void *measure(void *given) {
    const struct call *call = given;
    if (!find_stack()) {
        return NULL;
    }
    bidder = 1;
    worth = PAS_MAX_WORTH;
    make(&sheet, 0, PAS_MAX_BEST_BIDDERS, PAS_MAX_BEST_PLACES, PAS_MAX_CONDITIONS, PAS_MAX_BID, PAIRS);
    make(&truth, 0, PAS_MAX_BEST_BIDDERS, PAS_MAX_BEST_PLACES, PAS_MAX_CONDITIONS, PAS_MAX_BID, PAIRS);
    make_floors(&floors, 0, PAS_MAX_BEST_PLACES);
    make_terms(&terms, 0);
    make_rivals(&rivals, 0);
    make_group(&group, 0);
    found.first = call->measured(0xa5);
    for (uint32_t round = 0; round < ROUNDS; round++) {
        make_numbered(&sheet, round);
        make_floors(&floors, round, sheet.bytes[6]);
        make_terms(&terms, round);
        make_rivals(&rivals, round);
        make_group(&group, round);
        /* the truth sheet has as many bidders and places, but for one time in 16 */
        uint32_t n = round % 16 ? count_near(sheet.bytes[5], PAS_MAX_BIDDERS) : 1;
        uint32_t m = count_near(sheet.bytes[6], PAS_MAX_PLACES);
        make(&truth, ticks[round / 2 % TICKS], n, m, round % 2 ? PAS_MAX_CONDITIONS : 0, 1, MIXED);
        bidder = between(round % 16 ? 1 : 0, sheet.bytes[5]);
        measure_later(call);
    }
    return &found;
}

/* measures one call in a thread and writes what is found to the pipe */
static int measure_in_thread(const struct call *call, int to) {
    pthread_attr_t attributes;
    pthread_t thread;
    void *measured = NULL;
    if (pthread_attr_init(&attributes) != 0 || pthread_attr_setstacksize(&attributes, STACK) != 0 ||
        pthread_create(&thread, &attributes, measure, (void *)call) != 0 || pthread_join(thread, &measured) != 0) {
        return EXIT_FAILURE;
    }
    return measured && write(to, &found, sizeof found) == sizeof found ? EXIT_SUCCESS : EXIT_FAILURE;
}

/* measures one call in a process of its own; whether that went well */
static int measure_in_process(const struct call *call, struct found *into) {
    int ends[2];
    if (pipe(ends) != 0) {
        return 0;
    }
    pid_t child = fork();
    if (child == 0) {
        _exit(measure_in_thread(call, ends[1]));
    }
    /* closed here, so that the end of a child that writes nothing ends the read */
    close(ends[1]);
    int status = 1;
    int whole = child > 0 && read(ends[0], into, sizeof *into) == sizeof *into;
    close(ends[0]);
    return child > 0 && waitpid(child, &status, 0) == child && status == 0 && whole;
}

int main(void) {
    int within = 1;
    printf("call             first call  later calls  header's figure  accepted  refused\n");
    fflush(stdout);
    for (size_t i = 0; i < CALLS; i++) {
        struct found of;
        if (!measure_in_process(&calls[i], &of)) {
            fprintf(stderr, "%s is not measured\n", calls[i].name);
            return EXIT_FAILURE;
        }
        printf("%-15s  %10zu  %11zu  %15zu  %8" PRIu32 "  %7" PRIu32 "\n", calls[i].name, of.first, of.later,
               calls[i].promised, of.accepted, of.refused);
        fflush(stdout);
        if (of.first > calls[i].promised || of.later > calls[i].promised) {
            fprintf(stderr, "%s takes more stack than the header says\n", calls[i].name);
            within = 0;
        }
        if (of.accepted == 0 || of.refused == 0) {
            fprintf(stderr, "%s is not measured on calls of both kinds\n", calls[i].name);
            within = 0;
        }
    }
    return within ? EXIT_SUCCESS : EXIT_FAILURE;
}
