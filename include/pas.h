/*
 * pas.h - position pages with bidders' conditions, the fourteen calls of libpas.a
 *
 * A search page has a few paid places. Suppliers, the bidders, bid per click and list conditions (where they will not
 * stand, beside whom). The library fills the places from the top, charges each winner a second price, tests a bidder's
 * list, works out a bidder's gain, finds the best page of a small round, shows where in a sheet one bidder's conditions
 * stand, writes the one sheet of version 2 for a round, writes a bidder's conditions from its top-of-page terms or from
 * the rivals that it will only stand above, tells whether bidders with such rivals could share a page, and tells how
 * far below the best their page can be. Playing, gain and best page have a second form, with a floor under each place.
 * It is proved: each call meets its description below for every input. It allocates nothing, keeps nothing between
 * calls and calls nothing but memcpy and memset.
 *
 * Build:   ./build-library            (proves, and gives target/staticlib/libpas.a, for x86-64 Linux)
 * Link:    cc program.c -I include target/staticlib/libpas.a
 *
 * docs/EMBEDDING.md maps the words of this file (place, condition, worth ...) to those of the Rust wrapper and of the
 * field, and has the reasons for what is asked of a caller. CHANGELOG.md has the versions, docs/PERFORMANCE.md times.
 *
 *
 * The sheet
 *
 * A round comes as one string of bytes. Fields of more than one byte are unsigned, low byte first.
 *
 *   offset          bytes        field
 *   0               3            mark, the letters P A S (50 41 53)
 *   3               2            version, 1 or 2
 *   5               1            n, bidders, 1 to 64
 *   6               1            m, places, 1 to 16
 *   7               2            c, conditions, 0 to 1,024
 *   9               4            in version 2 only: tick, 1 to 1,000,000,000
 *   h               4 each, m    effect of places 1 to m, 1 to 1,000,000, none larger than the one before
 *   h + 4m          4 each, n    bid of bidders 1 to n, 0 to 1,000,000,000, a multiple of the tick
 *   h + 4(m + n)    4 each, c    condition: owner, own place, other bidder, other's place, one byte each; in version 2
 *                                in rising order
 *
 * Here h is 9 in version 1, which has no tick in it and means tick 1, and 13 in version 2. The length is exactly
 * h + 4 (m + n + c): PAS_SHEET_LENGTH(n, m, c), and in version 2 PAS_TICK_LENGTH more. The version in the sheet is that
 * of the format and not that of the library (PAS_VERSION).
 *
 * Bidders and places are counted from 1; place 1 is the top of the page. There may be more places than bidders. A page
 * gives each place one bidder or none, and no bidder two places. The effect of a place says how many clicks it brings,
 * in any unit; bids, prices and worths are per click, in any currency. Bids and prices go in steps of the tick, from 0.
 *
 * A condition binds only if its owner has a place. It is broken when both its parts are true: the owner is at the own
 * place (own place 0: any place), and the other bidder is at the other's place (other bidder 0 with other's place 0: no
 * other, and this part is true). So
 *
 *   (1, 2, 0, 0)   1 will not stand at place 2
 *   (1, 0, 3, 1)   1 will not stand on a page that has 3 at place 1
 *   (1, 2, 3, 1)   1 will not stand at place 2 while 3 is at place 1
 *   (1, 2, 3, 2)   accepted, and never broken: no place has two bidders
 *
 * In version 1 conditions may come in any order and may repeat. In version 2 each is above the one before it, by owner,
 * then own place, then other bidder, then other's place: the first of the four in which two conditions differ decides.
 * That is the order of their four bytes (memcmp), so that the four above would come as (1, 0, 3, 1), (1, 2, 0, 0),
 * (1, 2, 3, 1), (1, 2, 3, 2). None repeats, and the conditions of one owner stand together: pas_owner_part finds them.
 * So a round has one sheet of version 2, which pas_canonical writes from any sheet of the round, and many of version 1
 * where the tick is 1 and there are conditions.
 *
 *
 * What holds for every call
 *
 * - It returns PAS_OK (0), or the number of the first rule that the call breaks, in the order of the list below.
 * - A refused call writes nothing: no byte of a result, and nothing to *answer, *gain, *total, *start, *length,
 *   *written, *count or *factor.
 * - A call that is not refused writes what its description says and nothing else. It does not read what it writes to,
 *   so that memory need not be set before.
 * - The same bytes and numbers get the same answer, always.
 *
 *
 * What is asked of the caller
 *
 * - A pointer and its length are those of memory that is there. The length of a sheet is its own and not that of a
 *   larger buffer that it lies in (rule 7); a result may be longer than what is written.
 * - No pointer is null, also where the length is 0. The proofs speak of slices, and nothing in the toolchain says that
 *   null is one, so no answer is promised there. An empty std::vector may have one: pas_to_read, pas_to_write and
 *   pas_to_read_floors below give another pointer instead. Where the length is 0 any other pointer will do.
 * - Sheets, bars, sets of bidders, results and *answer are bytes and may lie at any address. Floors, *count and *factor
 *   must be aligned as uint32_t is (4 bytes); *gain, *total, *start, *length and *written as int64_t, uint64_t and
 *   size_t are (8 bytes). Each variable and each array of these types is.
 * - What a call writes overlaps neither what it reads nor another thing that it writes. Sheets, bars, sets of bidders
 *   and floors are only read and may overlap.
 * - While a call runs nobody else writes what it reads, nor touches what it writes. Otherwise calls may run in several
 *   threads at once, on the same sheet too: the library has no variables of its own.
 * - There is enough stack, see PAS_STACK_PLAY and the others below.
 *
 * Nothing else is asked: any bytes, any length and any numbers get their answer.
 */
#ifndef PAS_H
#define PAS_H

#include <stddef.h>
#include <stdint.h>

#ifdef __cplusplus
extern "C" {
#endif

/* ---- Version ---- */

/* The version of the library and of this file. CHANGELOG.md says what each one brought, and what a new number means. */
#define PAS_VERSION "2.5.0"
#define PAS_VERSION_MAJOR 2
#define PAS_VERSION_MINOR 5
#define PAS_VERSION_PATCH 0

/* ---- Sizes ---- */

#define PAS_MAX_BIDDERS 64u
#define PAS_MAX_PLACES 16u
#define PAS_MAX_CONDITIONS 1024u
#define PAS_MAX_EFFECT 1000000u
#define PAS_MAX_BID 1000000000u
#define PAS_MAX_TICK 1000000000u
#define PAS_MAX_WORTH 1000000000u
#define PAS_MAX_FLOOR 1000000000u

/* most bidders and most places with which the best page is found */
#define PAS_MAX_BEST_BIDDERS 8u
#define PAS_MAX_BEST_PLACES 8u

/*
 * bytes of a sheet before its effects, and of a sheet with n bidders, m places and c conditions, in version 1; by how
 * many both are more in version 2; bytes of the longest sheet, of version 2
 */
#define PAS_HEADER_LENGTH 9u
#define PAS_SHEET_LENGTH(n, m, c) (9u + 4u * ((size_t)(m) + (size_t)(n) + (size_t)(c)))
#define PAS_TICK_LENGTH 4u
#define PAS_MAX_SHEET_LENGTH 4429u

/* bytes that pas_play writes for each place (bidder, price) and for the longest page; pas_best writes 1 a place */
#define PAS_PLACE_LENGTH 5u
#define PAS_MAX_RESULT_LENGTH 80u

/* bytes of the longest list that pas_slot_terms writes, of 1,023 conditions, and pas_above_terms, of 1,014 */
#define PAS_MAX_TERMS_LENGTH 4092u
#define PAS_MAX_ABOVE_LENGTH 4056u

/* ---- Stack ---- */

/*
 * Bytes of stack that suffice for a call, counted from where its caller calls it.
 *
 *   call             measured    first call    figure below
 *   pas_check             144           144           1,024
 *   pas_play           31,544  about 34,800          40,960
 *   pas_downward        2,288  about  5,400          24,576
 *   pas_gain           31,592  about 34,900          40,960
 *   pas_best            8,656         8,656          20,480
 *   pas_owner_part        176           176           1,024
 *   pas_play_floors    31,624  about 34,900          40,960
 *   pas_gain_floors    31,768  about 35,000          40,960
 *   pas_best_floors     8,688         8,688          20,480
 *   pas_canonical       9,416         9,416          20,480
 *   pas_slot_terms        100           100           1,024
 *   pas_above_terms       220           220           1,024
 *   pas_share_page        792  about  4,100           8,192
 *   pas_loss_bound     10,168        10,168          20,480
 *
 * These are measured and not proved: nothing in the toolchain bounds a stack. examples/c/stack measures them, on the
 * largest sheets, terms and sets, on refused ones and on random ones, and fails where a call takes more than its
 * figure. The table is for the archive that rattle-kit-13f made of this version, with glibc 2.36; for another kit run
 * examples/c/stack again. "First call" has what
 * the dynamic linker takes where it looks up memcpy and memset in that call. The figures of the calls that use these
 * two leave 4 KB and more above "measured", for that and for another C library.
 *
 * A thread with 64 KB of stack does for every call; by the figures one of 16 KB, PTHREAD_STACK_MIN, does for
 * pas_check, pas_owner_part, pas_slot_terms, pas_above_terms and pas_share_page alone. A call that finds too little
 * stack runs into the guard page and ends the program; where there is no guard page, as below many a coroutine's stack,
 * it overwrites what lies there.
 */
#define PAS_STACK_CHECK 1024u
#define PAS_STACK_PLAY 40960u
#define PAS_STACK_DOWNWARD 24576u
#define PAS_STACK_GAIN 40960u
#define PAS_STACK_BEST 20480u
#define PAS_STACK_OWNER_PART 1024u
#define PAS_STACK_PLAY_FLOORS PAS_STACK_PLAY
#define PAS_STACK_GAIN_FLOORS PAS_STACK_GAIN
#define PAS_STACK_BEST_FLOORS PAS_STACK_BEST
#define PAS_STACK_CANONICAL 20480u
#define PAS_STACK_SLOT_TERMS 1024u
#define PAS_STACK_ABOVE_TERMS 1024u
#define PAS_STACK_SHARE_PAGE 8192u
#define PAS_STACK_LOSS_BOUND 20480u

/* the largest of the fourteen */
#define PAS_MAX_STACK PAS_STACK_GAIN

/* ---- Numbers of a refused call, in checking order ---- */

enum {
    PAS_OK = 0,                 /* The call has its full result. */

    PAS_SHEET_TOO_SHORT = 1,    /* The sheet has fewer than 9 bytes, or fewer than 13 in version 2. */
    PAS_WRONG_MARK = 2,         /* The mark is not P A S. */
    PAS_WRONG_VERSION = 3,      /* The version is neither 1 nor 2. */
    PAS_WRONG_BIDDERS = 4,      /* n is 0 or above 64. */
    PAS_WRONG_PLACES = 5,       /* m is 0 or above 16. */
    PAS_TOO_MANY_CONDITIONS = 6, /* c is above 1,024. */
    PAS_WRONG_TICK = 26,        /* The tick is 0 or above 1,000,000,000. */
    PAS_WRONG_LENGTH = 7,       /* The length is not 9 + 4 (m + n + c), or 13 + 4 (m + n + c) in version 2. */
    PAS_WRONG_EFFECT = 8,       /* An effect is 0, above 1,000,000 or above the one before it. */
    PAS_WRONG_BID = 9,          /* A bid is above 1,000,000,000. */
    PAS_BID_OFF_TICK = 27,      /* A bid is no multiple of the tick. */
    PAS_OUT_OF_RANGE = 10,      /* A condition has owner 0, owner or other bidder above n, or a place above m. */
    PAS_OTHER_IS_OWNER = 11,    /* A condition's other bidder is its owner. */
    PAS_HALF_AN_OTHER = 12,     /* Just one of other bidder and other's place is 0. */
    PAS_EMPTY_CONDITION = 13,   /* Own place, other bidder and other's place are all 0. */
    PAS_OUT_OF_ORDER = 28,      /* A condition of version 2 is not above the one before it. */

    PAS_WRONG_FLOOR_COUNT = 30, /* The list of floors is not m long. */
    PAS_WRONG_FLOOR = 31,       /* A floor is above 1,000,000,000. */

    PAS_TRUTH_REFUSED = 14,     /* The truth sheet breaks any of 1 to 13 and 26 to 28. */
    PAS_TRUTH_DIFFERS = 15,     /* The truth sheet has another n or m. */
    PAS_UNORDERED_VERSION = 29, /* A bidder's part is asked of a sheet of version 1. */
    PAS_WRONG_BIDDER = 16,      /* The bidder named in the call is 0 or above n. */
    PAS_WRONG_WORTH = 17,       /* The worth is above 1,000,000,000. */
    PAS_TOO_LARGE_FOR_BEST = 18, /* The best page is sought with n above 8 or m above 8. */
    PAS_WRONG_LIMIT = 20,       /* The limit is 0 or above m. */
    PAS_WRONG_BARS = 21,        /* The list of bars is not n long, or a bar is above m. */
    PAS_BAR_AGAINST_OWNER = 22, /* The bar against the owner is not 0. */
    PAS_WRONG_SET = 23,         /* The rival sets are not exactly n, or a set has a number 0 or above n. */
    PAS_RIVAL_IS_OWNER = 24,    /* A bidder is in its own rival set. */
    PAS_TOO_MANY_TERMS = 25,    /* The rivals give more than 1,024 conditions. */
    PAS_RESULT_TOO_SHORT = 19   /* The result buffer is shorter than the bytes to be written. */
};

/*
 * The 13 bytes of version 2 are asked for after rule 3: before it the version is not known. Rule 9 is held against all
 * bids, and then 27 against all of them. Rules 10 to 13 and 28 are held against the conditions in sheet order: the
 * first condition that breaks one of them decides, and for it the first of the five. So a condition that is out of
 * order and breaks 11 too is refused with 11; where one that is only out of order stands before it, with 28. Rule 23 is
 * held against all sets of a call, and then 24 against all of them.
 */

/* ---- Pointers that may be null ---- */

/*
 * The pointer itself; where the length is 0, one that is not null, and through which nothing is read or written. For
 * memory that may be empty, as a std::vector:
 *
 *   pas_check(pas_to_read(sheet.data(), sheet.size()), sheet.size())
 */
static inline const uint8_t *pas_to_read(const uint8_t *pointer, size_t length) {
    static const uint8_t nothing = 0;
    return length == 0 ? &nothing : pointer;
}

static inline uint8_t *pas_to_write(uint8_t *pointer, size_t length) {
    static uint8_t nothing = 0;
    return length == 0 ? &nothing : pointer;
}

static inline const uint32_t *pas_to_read_floors(const uint32_t *pointer, size_t length) {
    static const uint32_t nothing = 0;
    return length == 0 ? &nothing : pointer;
}

/* ---- The calls ---- */

/*
 * Checks a sheet: 1 to 13 or 26 to 28, or PAS_OK for an accepted sheet. Every other call that takes a sheet does this
 * by itself.
 */
uint32_t pas_check(const uint8_t *sheet, size_t sheet_len);

/*
 * Plays the round: fills the places from 1 to m and prices each.
 *
 * A bidder that has no place yet is eligible for place k if, with the places before k as they are filled and it at k,
 * no condition is broken that is its own or an earlier winner's. The eligible bidder with the highest bid wins the
 * place (equal bids: the lower number). A place for which nobody is eligible stays empty, and the next one is still
 * tried.
 *
 * The price is per click: the smallest bid that the sheet would accept, a multiple of the tick from 0, with which the
 * winner, all else unchanged, still wins that place.
 *
 * Writes 5 bytes a place to the start of the result: the bidder, and 4 bytes of price, low byte first. An empty place
 * has bidder 0 and price 0; a winner's price may be 0 too. Bytes after 5 m stay as they were. A result of
 * PAS_MAX_RESULT_LENGTH bytes always does.
 *
 * Refused with 1 to 13, 26 to 28, or 19 where result_len is below 5 m.
 */
uint32_t pas_play(const uint8_t *sheet, size_t sheet_len, uint8_t *result, size_t result_len);

/*
 * Tests the list of one bidder, the conditions that it owns: *answer is 1 where the list is downward monotonic and 0
 * where it is not.
 *
 * A list is downward monotonic where for each of its conditions with own place k, from 1 to m - 1, it also has the
 * condition with own place k + 1 and the same other bidder and other's place. Own place 0 asks for nothing further, and
 * an empty list is downward monotonic.
 *
 * Refused with 1 to 13, 26 to 28, or 16.
 */
uint32_t pas_downward(const uint8_t *sheet, size_t sheet_len, uint32_t bidder, uint8_t *answer);

/*
 * What a bidder gains where `played` is played and its true conditions are those that it owns in `truth`, at a worth
 * per click from 0 to PAS_MAX_WORTH. *gain is 0 where it has no place. At a place with effect e and price p it is
 * e * (worth - p) where none of its true conditions is broken on the page, and -(e * p) where one is. It lies between
 * -10^15 and 10^15.
 *
 * Of `truth` the bidder's own conditions count and nothing else, but it must be an accepted sheet with the n and m of
 * `played`; its version and its tick may be others. The two sheets may be the same memory.
 *
 * Proved of it: let `truth` be the sheet with the bidder's true conditions, and `other` one that differs from it in the
 * bidder's list alone, which pas_downward answers with 1; both are accepted, and have the same tick (one may be of
 * version 1 and the other of version 2 with tick 1). Then, with `truth` as the truth sheet of both calls and at any
 * worth from the bidder's bid to PAS_MAX_WORTH, neither call is refused, and the gain with `truth` played is at least
 * the gain with `other` played.
 *
 * Refused with 1 to 13 or 26 to 28 for `played`, 14 for `truth`, 15, 16, or 17.
 */
uint32_t pas_gain(const uint8_t *played, size_t played_len, const uint8_t *truth, size_t truth_len, uint32_t bidder,
                  uint32_t worth, int64_t *gain);

/*
 * Finds the best page of a round of up to 8 bidders and 8 places: of the pages that break no condition one with the
 * largest total, the sum of bid times effect over filled places, and of those the one whose bidder numbers by place, 0
 * for an empty one, come first in dictionary order.
 *
 * Writes m bytes of bidder numbers to the start of the result, and the total, at most 8 * 10^15, to *total. Later bytes
 * stay as they were.
 *
 * Time: most sheets of 8 bidders and 8 places take less than three plays of the largest sheet. The worst that was
 * found, of 201 bytes, takes 40 million instructions, the time of some 800 such plays, or about 3 milliseconds
 * (docs/PERFORMANCE.md has it and how it was searched for); that none takes longer is not proved. Where strangers write
 * the sheets, reckon with it.
 *
 * Refused with 1 to 13, 26 to 28, 18, or 19 where result_len is below m.
 */
uint32_t pas_best(const uint8_t *sheet, size_t sheet_len, uint8_t *result, size_t result_len, uint64_t *total);

/*
 * Finds the part of a sheet of version 2 with the conditions that one bidder owns: *start is how many bytes of the
 * sheet stand before the part, and *length how many it has, four a condition. So the part is the *length bytes from
 * sheet + *start on, in the sheet's own memory: all conditions that the bidder owns and no other, in order.
 *
 * The part of a bidder without conditions is empty, *length 0, and stands just before the first condition of an owner
 * with a higher number or, where there is none, at the sheet's end: *start is sheet_len then.
 *
 * Time: that of pas_check, and besides it a number of steps that grows with the logarithm of c. (This is how the search
 * goes; no time is proved.)
 *
 * Refused with 1 to 13 or 26 to 28, with 29 for a sheet of version 1 that is otherwise accepted, or 16.
 */
uint32_t pas_owner_part(const uint8_t *sheet, size_t sheet_len, uint32_t bidder, size_t *start, size_t *length);

/*
 * Writes the one sheet for a round: of version 2, with n, m, effects and bids as they are, the tick (1 for a sheet of
 * version 1), and the conditions in rising order, each once, however often the sheet has it. A sheet of version 2 is
 * that sheet already, and is copied.
 *
 * Two sheets say the same round where n, m, tick, effects and bids are equal and each has every condition that the
 * other has. Proved of it, for accepted sheets:
 *
 * - what is written of two sheets is equal, byte for byte, exactly where they say the same round: so memcmp tells;
 * - what is written is accepted, says the round of the sheet, and is written again as it is;
 * - the sheet and what is written of it get the same answers: the same page and prices, downward answers, gains, as
 *   played and as truth sheet, and best page, with floors too. (pas_owner_part, which refuses version 1, takes what is
 *   written.)
 *
 * Writes the sheet to the start of the result and its length to *written. Later bytes stay as they were. A result of
 * sheet_len + PAS_TICK_LENGTH bytes always does, and so does one of PAS_MAX_SHEET_LENGTH. The result must not overlap
 * the sheet: a sheet is not rewritten in its place.
 *
 * Refused with 1 to 13, 26 to 28, or 19 where result_len is below the length of the sheet to be written.
 */
uint32_t pas_canonical(const uint8_t *sheet, size_t sheet_len, uint8_t *result, size_t result_len, size_t *written);

/*
 * Writes a bidder's conditions from its top-of-page terms, the numbers that buyers think in: the lowest place that it
 * accepts, its limit, and for each other bidder how many top places that one must not have, the bar against it. No
 * sheet is read: n and m are those of the sheet that the conditions are meant for. The bars are n bytes, that against
 * bidder 1 first; the one against the owner itself is 0.
 *
 * - A bar B against bidder j gives (owner, 0, j, 1) to (owner, 0, j, B), and a bar of 0 none: the owner will not stand
 *   on a page that has j at one of the places 1 to B.
 * - A limit L gives (owner, L + 1, 0, 0) to (owner, m, 0, 0), and a limit of m none: the owner will not stand below
 *   place L.
 *
 * Writes them to the start of the result, four bytes each, in rising order: those of the bars, by bidder and then by
 * place, and after them those of the limit. Writes to *count how many there are, which may be 0. Later bytes stay as
 * they were. There are at most 1,023, so a result of PAS_MAX_TERMS_LENGTH bytes always does.
 *
 * With n 3 and m 3, owner 2, limit 2 and bars 1, 0, 3 give five conditions:
 *
 *   (2, 0, 1, 1)   (2, 0, 3, 1)   (2, 0, 3, 2)   (2, 0, 3, 3)   (2, 3, 0, 0)
 *
 * Proved of them: on a sheet with that n and m none of them breaks any of 10 to 13. The list is downward monotonic for
 * that m: on an accepted sheet with that n and m on which the owner's list is this one, in any order, pas_downward
 * answers 1. So on such sheets what is proved of pas_gain, and of pas_gain_floors, holds with this as the bidder's list
 * in `other`, and no test need be made.
 *
 * Refused with 4, 5, 16 for the owner, 20, 21, which counts the owner's own bar too, 22, or 19 where result_len is
 * below 4 times the number of conditions.
 */
uint32_t pas_slot_terms(uint32_t n, uint32_t m, uint32_t owner, uint32_t limit, const uint8_t *bars, size_t bars_len,
                        uint8_t *result, size_t result_len, uint32_t *count);

/*
 * Writes the conditions of a bidder that will stand only above certain others, its rivals: for each rival, all pairs in
 * which the rival's place is above the owner's. No sheet is read: n and m are those of the sheet that the conditions
 * are meant for. The rivals are a set: rivals_len bytes, each the number of a bidder, in any order. A repeat counts
 * once, so that there may be more bytes than bidders, and there may be none at all.
 *
 * A rival j gives (owner, k, j, l) for each k from 2 to m and each l from 1 to k - 1: the owner will not stand at place
 * k while j is at place l. These are m (m - 1) / 2 conditions for each rival, and none where m is 1. A page that has
 * not both of them breaks none.
 *
 * Writes them to the start of the result, four bytes each, in rising order, each once: by own place, then by rival,
 * then by the rival's place. Writes to *count how many there are, which may be 0. Later bytes stay as they were. A
 * result of PAS_MAX_ABOVE_LENGTH bytes always does, and so does one of PAS_MAX_TERMS_LENGTH.
 *
 * With n 3 and m 3, owner 1 and rivals 3, 2, 3 give six conditions:
 *
 *   (1, 2, 2, 1)   (1, 2, 3, 1)   (1, 3, 2, 1)   (1, 3, 2, 2)   (1, 3, 3, 1)   (1, 3, 3, 2)
 *
 * Proved of them, as of those of pas_slot_terms: on a sheet with that n and m none of them breaks any of 10 to 13, and
 * the list is downward monotonic for that m. So on such sheets what is proved of pas_gain, and of pas_gain_floors,
 * holds with this as the bidder's list in `other`, and no test need be made.
 *
 * Refused with 4, 5, 16 for the owner, 23 for a rival that is 0 or above n, 24 where the owner is among its rivals, 25
 * for more than 1,024 conditions, or 19 where result_len is below 4 times their number.
 */
uint32_t pas_above_terms(uint32_t n, uint32_t m, uint32_t owner, const uint8_t *rivals, size_t rivals_len,
                         uint8_t *result, size_t result_len, uint32_t *count);

/*
 * Tells whether some bidders, the members, could share a page of m places where each bidder has a set of rivals and
 * will stand only above those of them that are on the page: *answer is 1, a yes, where there are at most m members and
 * some order of them, from the top down, puts each above every rival of its own among them; else it is 0, a no. Rivals
 * that are no members do not matter, and bids are not asked.
 *
 * The members are a set, as the rivals in pas_above_terms are. No members at all are a yes, and more than m members a
 * no. The rival sets are lent one after another, that of bidder 1 first and one for each of the n bidders, members or
 * not, each with its length in one byte before it, so that a set has from 0 to 255 numbers. With n 4 the bytes
 *
 *   2  3 2    0    1  2    0        (rival_sets_len 7)
 *
 * say that 1 will stand only above 2 and 3, and 3 only above 2. Without repeats n sets are at most n * n bytes.
 *
 * A yes writes the first such order in dictionary order to the start of the result, one byte a member, the one at the
 * top first, and later bytes stay as they were. A result of m bytes always does. A no writes nothing but *answer. With
 * the sets above and m 3 the members 2, 4 and 1 get a yes and the order 1, 2, 4, and with all four of them a no.
 *
 * Proved of it, for an accepted sheet with that n and m on which the list of each bidder is the one that
 * pas_above_terms writes from its set: after a yes the page with the members on the first places, in the order that is
 * written, and nobody else, breaks no condition; and after a no every page on which all the members stand breaks one.
 *
 * Time: no order is tried. Each set is read once, and then the members are gone through twice for each of them. (This
 * is how the search goes; no time is proved.)
 *
 * Refused with 4, 5, 23 where a member is 0 or above n, where the bytes are not exactly n rival sets or where a rival
 * is 0 or above n, 24 where a bidder, member or not, is in its own set, or 19 for a yes where result_len is below the
 * number of members. A no needs no room.
 */
uint32_t pas_share_page(uint32_t n, uint32_t m, const uint8_t *members, size_t members_len, const uint8_t *rival_sets,
                        size_t rival_sets_len, uint8_t *result, size_t result_len, uint8_t *answer);

/*
 * Tells how far below the best the page that pas_play writes can be, where every bidder's list is one that
 * pas_above_terms writes. Proved of it: where *factor is not 0,
 *
 *   *factor times the total of the page that pas_play writes is at least the total of every page of the round,
 *
 * also of one that breaks conditions. So it is at least that of the best page, up to 64 bidders and 16 places, where
 * pas_best does not seek it. A total is the sum of bid times effect over filled places, as in pas_best; it is at most
 * 1.6 * 10^16, and the product fits an int64_t.
 *
 * *factor is d + 1, from 1 to 64, d being the largest number of bidders that name one same rival. It is 0 where some
 * bidder's list is another one, and then nothing is said of the page. A list is one of these where
 *
 * - each condition in it is a pair (owner, k, j, l) with l from 1 to k - 1: rival j is above the owner;
 * - for each rival that it names, it has all m (m - 1) / 2 pairs.
 *
 * An empty list is one: it names nobody. The order does not matter, nor in version 1 how often a condition is there. A
 * sheet without conditions gets 1, and its page has the largest total that there is. With one place there is no such
 * pair, so a sheet of one place that has conditions gets 0. Bids and effects do not matter.
 *
 * The factor is a bound, and a page may be nearer to the best, or a best one. But where all bids and effects are 1,
 * there are d + 1 bidders and as many places, and bidders 2 to d + 1 have bidder 1 for their rival, pas_play gives place
 * 1 to bidder 1 and leaves the others empty, total 1, while the best page has all bidders, total d + 1. (Proved for d of
 * 1, 2 and 3, tested up to 12; from 13 on a sheet has no room for these lists.)
 *
 * Nothing is said of pages with floors.
 *
 * Refused with 1 to 13 or 26 to 28.
 */
uint32_t pas_loss_bound(const uint8_t *sheet, size_t sheet_len, uint32_t *factor);

/* ---- The calls with floors ---- */

/*
 * The second forms of playing, gain and best page also take floors: what a place costs at least. They are a list of m
 * numbers of the machine's own, floors[0] for place 1, each from 0 to PAS_MAX_FLOOR. They may rise and fall from place
 * to place and need not be multiples of the tick. They are lent to one call and are no part of the sheet.
 *
 * With a floor under each place
 *
 * - a bidder is eligible for a place only with a bid at or above its floor, and else as in pas_play;
 * - a price is, as in pas_play, the smallest bid that the sheet would accept with which the winner, all else unchanged,
 *   the floors too, still wins that place. So it is the largest of the floor, rounded up to a multiple of the tick, and
 *   what the other eligible bidders ask: their bids, and a tick more where their number is lower. An empty place has
 *   price 0, whatever its floor;
 * - the best page is sought among the pages that break no condition and on which, besides, each filled place has a bid
 *   at or above its floor. A place may stay empty, whatever its floor.
 *
 * A floor of 0 asks for nothing: with m floors of 0 a call gives what its first form gives, to the last byte.
 *
 * The floors are tested after the sheet, in pas_gain_floors after the played sheet: 30 where floors_len is not m, then
 * 31. All other numbers come after that, in their order.
 */

/*
 * As pas_play, with floors.
 *
 * Refused with 1 to 13, 26 to 28, 30, 31, or 19 where result_len is below 5 m.
 */
uint32_t pas_play_floors(const uint8_t *sheet, size_t sheet_len, const uint32_t *floors, size_t floors_len,
                         uint8_t *result, size_t result_len);

/*
 * As pas_gain, with `played` played with floors.
 *
 * What is proved of pas_gain is proved of it too, with floors in any order, falling or rising, the same for both calls.
 *
 * Refused with 1 to 13 or 26 to 28 for `played`, 30, 31, 14 for `truth`, 15, 16, or 17.
 */
uint32_t pas_gain_floors(const uint8_t *played, size_t played_len, const uint32_t *floors, size_t floors_len,
                         const uint8_t *truth, size_t truth_len, uint32_t bidder, uint32_t worth, int64_t *gain);

/*
 * As pas_best, with floors.
 *
 * Time: to the search a floor is what a condition (i, place, 0, 0) of each bidder i below it would be. The worst sheet
 * for pas_best was searched for among sheets with such conditions too.
 *
 * Refused with 1 to 13, 26 to 28, 30, 31, 18, or 19 where result_len is below m.
 */
uint32_t pas_best_floors(const uint8_t *sheet, size_t sheet_len, const uint32_t *floors, size_t floors_len,
                         uint8_t *result, size_t result_len, uint64_t *total);

#ifdef __cplusplus
}
#endif

#endif
