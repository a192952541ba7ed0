/*
 * Round H of document 01 from C: builds its sheet, prints the page with its prices as the page program does, then a
 * bidder's gain and the best page; then the page of the same round with bids in ticks, a sheet of version 2, and two
 * bidders' conditions where they stand in that sheet; then page, gain and best page of that sheet with a floor under
 * each place; then whether other sheets say the round that a sheet of version 1 in disorder says; then the conditions
 * that a bidder's top-of-page terms give, and the page of the round with them in place of the others; then the round's
 * own conditions once more, written from the rivals that each bidder will only stand above, and which of the bidders
 * could share a page; then how far below the best the page of the round can be.
 */
#include <inttypes.h>
#include <stdio.h>
#include <string.h>

#include "pas.h"

enum { BIDDERS = 4, PLACES = 3, CONDITIONS = 9 };

static const uint32_t effects[PLACES] = {10000, 4500, 2025};
static const uint32_t bids[BIDDERS] = {30, 32, 36, 40};

/* 1 above 2, 2 above 3, 3 above 4: owner, own place, other bidder, other's place; in order, as version 2 asks */
static const uint8_t conditions[CONDITIONS][4] = {
    {1, 2, 2, 1}, {1, 3, 2, 1}, {1, 3, 2, 2}, {2, 2, 3, 1}, {2, 3, 3, 1},
    {2, 3, 3, 2}, {3, 2, 4, 1}, {3, 3, 4, 1}, {3, 3, 4, 2},
};

/* four bytes, low byte first */
static uint8_t *put_word(uint8_t *at, uint32_t word) {
    for (int i = 0; i < 4; i++) {
        *at++ = (uint8_t)(word >> (8 * i));
    }
    return at;
}

static uint32_t word_at(const uint8_t *at) {
    return at[0] | (uint32_t)at[1] << 8 | (uint32_t)at[2] << 16 | (uint32_t)at[3] << 24;
}

/* the sheet, of version 2 with a tick and of version 1 with 0 for none; its length */
static size_t build(uint8_t *sheet, uint32_t tick) {
    const uint8_t header[PAS_HEADER_LENGTH] = {'P', 'A', 'S', tick ? 2 : 1, 0, BIDDERS, PLACES, CONDITIONS, 0};
    memcpy(sheet, header, sizeof header);
    uint8_t *at = sheet + sizeof header;
    if (tick) {
        at = put_word(at, tick);
    }
    for (int k = 0; k < PLACES; k++) {
        at = put_word(at, effects[k]);
    }
    for (int i = 0; i < BIDDERS; i++) {
        at = put_word(at, bids[i]);
    }
    memcpy(at, conditions, sizeof conditions);
    return (size_t)(at - sheet) + sizeof conditions;
}

static int refused(const char *call, uint32_t number) {
    fprintf(stderr, "%s: refused %" PRIu32 "\n", call, number);
    return 1;
}

/* prints a line a place */
static void show_page(const uint8_t *result) {
    for (int k = 0; k < PLACES; k++) {
        const uint8_t *place = result + PAS_PLACE_LENGTH * (size_t)k;
        printf("%d %d %" PRIu32 "\n", k + 1, place[0], word_at(place + 1));
    }
}

/* prints the page; whether the sheet is refused */
static int play(const uint8_t *sheet, size_t length) {
    uint8_t result[PAS_MAX_RESULT_LENGTH];
    uint32_t number = pas_play(sheet, length, result, sizeof result);
    if (number != PAS_OK) {
        return refused("pas_play", number);
    }
    show_page(result);
    return 0;
}

/* prints a bidder's conditions from the sheet's own bytes; whether the call is refused */
static int show_part(const uint8_t *sheet, size_t length, uint32_t bidder) {
    size_t start = 0;
    size_t part = 0;
    uint32_t number = pas_owner_part(sheet, length, bidder, &start, &part);
    if (number != PAS_OK) {
        return refused("pas_owner_part", number);
    }
    printf("conditions of %" PRIu32 ", from byte %zu of %zu:", bidder, start, length);
    for (const uint8_t *at = sheet + start; at < sheet + start + part; at += 4) {
        printf(" (%d,%d,%d,%d)", at[0], at[1], at[2], at[3]);
    }
    printf("%s\n", part ? "" : " none");
    return 0;
}

/* prints page, gain of 4 and best page with floors; whether a call is refused */
static int show_with_floors(const uint8_t *sheet, size_t length, const uint32_t *floors) {
    uint8_t result[PAS_MAX_RESULT_LENGTH];
    uint32_t number = pas_play_floors(sheet, length, floors, PLACES, result, sizeof result);
    if (number != PAS_OK) {
        return refused("pas_play_floors", number);
    }
    show_page(result);

    int64_t gain = 0;
    number = pas_gain_floors(sheet, length, floors, PLACES, sheet, length, 4, 45, &gain);
    if (number != PAS_OK) {
        return refused("pas_gain_floors", number);
    }
    printf("gain of 4 at worth 45: %" PRId64 "\n", gain);

    uint8_t best[PLACES];
    uint64_t total = 0;
    number = pas_best_floors(sheet, length, floors, PLACES, best, sizeof best, &total);
    if (number != PAS_OK) {
        return refused("pas_best_floors", number);
    }
    printf("best page: %d %d %d, total %" PRIu64 "\n", best[0], best[1], best[2], total);
    return 0;
}

/* the sheet of version 1 with the conditions from the last to the first, the last REPEATS of them twice; its length */
enum { REPEATS = 3 };

static size_t build_in_disorder(uint8_t *sheet) {
    uint8_t *at = sheet + build(sheet, 0) - sizeof conditions;
    for (int i = 0; i < CONDITIONS + REPEATS; i++) {
        memcpy(at, conditions[(2 * CONDITIONS - 1 - i) % CONDITIONS], sizeof conditions[0]);
        at += sizeof conditions[0];
    }
    sheet[7] = CONDITIONS + REPEATS;
    return (size_t)(at - sheet);
}

/* a sheet's one sheet of version 2; 0 where the call is refused, and else its length */
static size_t write_canonical(const uint8_t *sheet, size_t length, uint8_t *canonical) {
    size_t written = 0;
    uint32_t number = pas_canonical(sheet, length, canonical, PAS_MAX_SHEET_LENGTH, &written);
    if (number != PAS_OK) {
        refused("pas_canonical", number);
    }
    return written;
}

/* prints how long both sheets are, and those that are written of them, and whether they say the same round */
static int compare(const uint8_t *one, size_t one_length, const uint8_t *other, size_t other_length) {
    uint8_t first[PAS_MAX_SHEET_LENGTH];
    uint8_t second[PAS_MAX_SHEET_LENGTH];
    size_t first_length = write_canonical(one, one_length, first);
    size_t second_length = write_canonical(other, other_length, second);
    if (first_length == 0 || second_length == 0) {
        return 1;
    }
    int same = first_length == second_length && memcmp(first, second, first_length) == 0;
    printf("%zu bytes, written as %zu, and %zu, as %zu: %s\n", one_length, first_length, other_length, second_length,
           same ? "the same round" : "another round");
    return 0;
}

/* prints conditions on one line */
static void show_conditions(const uint8_t *list, uint32_t count) {
    const uint8_t *end = list + 4 * (size_t)count;
    for (const uint8_t *at = list; at < end; at += 4) {
        printf("(%d,%d,%d,%d)%s", at[0], at[1], at[2], at[3], at + 4 < end ? " " : "");
    }
    printf("%s\n", count ? "" : "none");
}

/* sets how many conditions a sheet has, which stand at its end; its length */
static size_t set_count(uint8_t *sheet, uint32_t count) {
    sheet[7] = (uint8_t)count;
    sheet[8] = (uint8_t)(count >> 8);
    return PAS_SHEET_LENGTH(BIDDERS, PLACES, count);
}

/* prints the conditions that terms of 4 give and the page of the round with them alone; whether a call is refused */
static int show_terms(uint32_t limit, const uint8_t *bars) {
    uint8_t sheet[PAS_SHEET_LENGTH(BIDDERS, PLACES, 0) + PAS_MAX_TERMS_LENGTH];
    uint8_t *list = sheet + build(sheet, 0) - sizeof conditions;
    uint32_t count = 0;
    uint32_t number = pas_slot_terms(BIDDERS, PLACES, 4, limit, bars, BIDDERS, list, PAS_MAX_TERMS_LENGTH, &count);
    if (number != PAS_OK) {
        return refused("pas_slot_terms", number);
    }
    show_conditions(list, count);
    /* they stand where the sheet has them */
    size_t length = set_count(sheet, count);
    uint8_t downward = 0;
    number = pas_downward(sheet, length, 4, &downward);
    if (number != PAS_OK) {
        return refused("pas_downward", number);
    }
    printf("downward monotonic: %s\n", downward ? "yes" : "no");
    return play(sheet, length);
}

/* rival sets from bidder 1's on, each with its length before it: 1 above 2, 2 above 3, 3 above 4, and 4 above nobody */
static const uint8_t rival_sets[] = {1, 2, 1, 3, 1, 4, 0};

/* prints the conditions that the rivals of each give and the page of the round with them; whether a call is refused */
static int show_above(void) {
    uint8_t sheet[PAS_SHEET_LENGTH(BIDDERS, PLACES, 0) + BIDDERS * PAS_MAX_ABOVE_LENGTH];
    uint8_t *list = sheet + build(sheet, 0) - sizeof conditions;
    const uint8_t *set = rival_sets;
    uint32_t all = 0;
    for (uint32_t owner = 1; owner <= BIDDERS; owner++) {
        uint32_t count = 0;
        uint8_t *at = list + 4 * (size_t)all;
        uint32_t number = pas_above_terms(BIDDERS, PLACES, owner, set + 1, *set, at, PAS_MAX_ABOVE_LENGTH, &count);
        if (number != PAS_OK) {
            return refused("pas_above_terms", number);
        }
        show_conditions(at, count);
        all += count;
        set += 1 + *set;
    }
    return play(sheet, set_count(sheet, all));
}

/* prints the order in which members could share a page, or that they could not; whether the call is refused */
static int show_sharing(const uint8_t *members, size_t count, const uint8_t *sets, size_t sets_length) {
    uint8_t order[PLACES];
    uint8_t answer = 0;
    uint32_t number = pas_share_page(BIDDERS, PLACES, members, count, sets, sets_length, order, sizeof order, &answer);
    if (number != PAS_OK) {
        return refused("pas_share_page", number);
    }
    printf("members");
    for (size_t i = 0; i < count; i++) {
        printf(" %d", members[i]);
    }
    printf("%s", answer ? " share a page as" : " share no page");
    /* the members are all different here, so there are as many in the order */
    for (size_t k = 0; answer && k < count; k++) {
        printf(" %d", order[k]);
    }
    printf("\n");
    return 0;
}

/* prints a bound on the total of every page, or that there is none; whether a call is refused */
static int show_loss(const uint8_t *sheet, size_t length) {
    uint32_t factor = 0;
    uint32_t number = pas_loss_bound(sheet, length, &factor);
    if (number != PAS_OK) {
        return refused("pas_loss_bound", number);
    }
    uint8_t result[PAS_MAX_RESULT_LENGTH];
    number = pas_play(sheet, length, result, sizeof result);
    if (number != PAS_OK) {
        return refused("pas_play", number);
    }
    uint64_t total = 0;
    for (int k = 0; k < PLACES; k++) {
        uint8_t bidder = result[PAS_PLACE_LENGTH * (size_t)k];
        total += bidder ? (uint64_t)bids[bidder - 1] * effects[k] : 0;
    }
    printf("total of the page %" PRIu64 ", ", total);
    if (factor) {
        printf("of every page at most %" PRIu32 " times that, %" PRIu64 "\n", factor, factor * total);
    } else {
        printf("nothing is said of other pages\n");
    }
    return 0;
}

int main(void) {
    uint8_t sheet[PAS_SHEET_LENGTH(BIDDERS, PLACES, CONDITIONS) + PAS_TICK_LENGTH];
    size_t length = build(sheet, 0);
    if (play(sheet, length)) {
        return 1;
    }

    uint8_t downward = 0;
    uint32_t number = pas_downward(sheet, length, 1, &downward);
    if (number != PAS_OK) {
        return refused("pas_downward", number);
    }
    printf("list of 1 downward monotonic: %s\n", downward ? "yes" : "no");

    int64_t gain = 0;
    number = pas_gain(sheet, length, sheet, length, 4, 40, &gain);
    if (number != PAS_OK) {
        return refused("pas_gain", number);
    }
    printf("gain of 4 at worth 40: %" PRId64 "\n", gain);

    uint8_t best[PLACES];
    uint64_t total = 0;
    number = pas_best(sheet, length, best, sizeof best, &total);
    if (number != PAS_OK) {
        return refused("pas_best", number);
    }
    printf("best page: %d %d %d, total %" PRIu64 "\n", best[0], best[1], best[2], total);

    sheet[0] = 'Q';
    printf("with another mark: refused %" PRIu32 "\n", pas_check(sheet, length));

    printf("in ticks of 2:\n");
    length = build(sheet, 2);
    if (play(sheet, length) || show_part(sheet, length, 2) || show_part(sheet, length, 4)) {
        return 1;
    }

    /* the first is between two ticks, the second above each bid that could have the place, the third is none */
    static const uint32_t floors[PLACES] = {39, 33, 0};
    printf("with floors of 39, 33 and 0:\n");
    if (show_with_floors(sheet, length, floors)) {
        return 1;
    }
    uint8_t result[PAS_MAX_RESULT_LENGTH];
    number = pas_play_floors(sheet, length, floors, PLACES - 1, result, sizeof result);
    printf("with a floor too few: refused %" PRIu32 "\n", number);

    uint8_t kept[PAS_SHEET_LENGTH(BIDDERS, PLACES, CONDITIONS + REPEATS)];
    size_t kept_length = build_in_disorder(kept);
    printf("in disorder, with repeats, against version 1, version 2 and ticks of 2:\n");
    for (uint32_t tick = 0; tick <= 2; tick++) {
        length = build(sheet, tick);
        if (compare(kept, kept_length, sheet, length)) {
            return 1;
        }
    }
    uint8_t too_short[PAS_SHEET_LENGTH(BIDDERS, PLACES, CONDITIONS) + PAS_TICK_LENGTH - 1];
    size_t written = 0;
    number = pas_canonical(kept, kept_length, too_short, sizeof too_short, &written);
    printf("with a byte too few: refused %" PRIu32 "\n", number);

    /* 4 takes no place below 2, and will not stand where 3 has place 1 or 2, nor where 1 has place 1 */
    static const uint8_t bars[BIDDERS] = {1, 0, 2, 0};
    printf("terms of 4, limit 2 and bars 1, 0, 2, 0:\n");
    if (show_terms(2, bars)) {
        return 1;
    }
    uint8_t list[PAS_MAX_TERMS_LENGTH];
    uint32_t count = 0;
    number = pas_slot_terms(BIDDERS, PLACES, 4, PLACES + 1, bars, BIDDERS, list, sizeof list, &count);
    printf("with a limit below the page: refused %" PRIu32 "\n", number);
    number = pas_slot_terms(BIDDERS, PLACES, 3, 2, bars, BIDDERS, list, sizeof list, &count);
    printf("with a bar against the owner: refused %" PRIu32 "\n", number);

    printf("rivals, 1 above 2, 2 above 3 and 3 above 4:\n");
    static const uint8_t members[] = {4, 3, 2, 1};
    /* the same rival sets with 4 above 2, which closes a circle */
    static const uint8_t circle[] = {1, 2, 1, 3, 1, 4, 1, 2};
    if (show_above() || show_sharing(members, 3, rival_sets, sizeof rival_sets) ||
        show_sharing(members, 4, rival_sets, sizeof rival_sets)) {
        return 1;
    }
    printf("with 4 above 2 too:\n");
    if (show_sharing(members, 3, circle, sizeof circle)) {
        return 1;
    }
    number = pas_above_terms(BIDDERS, PLACES, 4, members, sizeof members, list, sizeof list, &count);
    printf("with the owner among its rivals: refused %" PRIu32 "\n", number);
    uint8_t answer = 0;
    number = pas_share_page(BIDDERS, PLACES, members, 3, circle, sizeof circle - 1, result, sizeof result, &answer);
    printf("with a byte of the rival sets too few: refused %" PRIu32 "\n", number);

    printf("how far below the best:\n");
    length = build(sheet, 0);
    if (show_loss(sheet, length)) {
        return 1;
    }
    /* the last condition, (3,3,4,2), made (3,3,4,1): it stands twice, and the list of 3 lacks a pair */
    sheet[length - 1] = 1;
    printf("with a pair missing:\n");
    if (show_loss(sheet, length)) {
        return 1;
    }
    uint32_t factor = 5;
    number = pas_loss_bound(sheet, length - 1, &factor);
    printf("with a byte of the sheet too few: refused %" PRIu32 ", factor still %" PRIu32 "\n", number, factor);
    return 0;
}
