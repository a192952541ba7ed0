/*
 * Sheets, results, floors, bars and sets of bidders in vectors, which may be empty: pas_to_read, pas_to_write and
 * pas_to_read_floors take the place of the null pointer that an empty vector has.
 */
#include <cstddef>
#include <cstdint>
#include <iostream>
#include <string>
#include <vector>

#include "pas.h"

using Bytes = std::vector<std::uint8_t>;
using Floors = std::vector<std::uint32_t>;

static std::uint32_t check(const Bytes &sheet) {
    return pas_check(pas_to_read(sheet.data(), sheet.size()), sheet.size());
}

static std::uint32_t play(const Bytes &sheet, Bytes &result) {
    return pas_play(pas_to_read(sheet.data(), sheet.size()), sheet.size(), pas_to_write(result.data(), result.size()),
                    result.size());
}

static std::uint32_t play(const Bytes &sheet, const Floors &floors, Bytes &result) {
    return pas_play_floors(pas_to_read(sheet.data(), sheet.size()), sheet.size(),
                           pas_to_read_floors(floors.data(), floors.size()), floors.size(),
                           pas_to_write(result.data(), result.size()), result.size());
}

/* a sheet's one sheet of version 2, empty where the call is refused */
static Bytes canonical(const Bytes &sheet) {
    Bytes result(sheet.size() + PAS_TICK_LENGTH);
    std::size_t written = 0;
    pas_canonical(pas_to_read(sheet.data(), sheet.size()), sheet.size(), result.data(), result.size(), &written);
    result.resize(written);
    return result;
}

/* the bytes of a bidder's conditions from its top-of-page terms, empty where the call is refused */
static Bytes slot_terms(std::uint32_t m, std::uint32_t owner, std::uint32_t limit, const Bytes &bars) {
    Bytes result(PAS_MAX_TERMS_LENGTH);
    std::uint32_t count = 0;
    pas_slot_terms(static_cast<std::uint32_t>(bars.size()), m, owner, limit, pas_to_read(bars.data(), bars.size()),
                   bars.size(), result.data(), result.size(), &count);
    result.resize(std::size_t{4} * count);
    return result;
}

/* the bytes of a bidder's conditions from its rivals, empty where the call is refused */
static Bytes above_terms(std::uint32_t n, std::uint32_t m, std::uint32_t owner, const Bytes &rivals) {
    Bytes result(PAS_MAX_ABOVE_LENGTH);
    std::uint32_t count = 0;
    pas_above_terms(n, m, owner, pas_to_read(rivals.data(), rivals.size()), rivals.size(), result.data(), result.size(),
                    &count);
    result.resize(std::size_t{4} * count);
    return result;
}

/* whether the members could share a page, with their order in the result, or the number of a refused call */
static std::string share_page(std::uint32_t n, std::uint32_t m, const Bytes &members, const Bytes &sets,
                              Bytes &result) {
    std::uint8_t answer = 0;
    const std::uint32_t number = pas_share_page(n, m, pas_to_read(members.data(), members.size()), members.size(),
                                                pas_to_read(sets.data(), sets.size()), sets.size(),
                                                pas_to_write(result.data(), result.size()), result.size(), &answer);
    return number != PAS_OK ? std::to_string(number) : answer ? "yes" : "no";
}

/* the bound on what the page of a sheet can lose, or the number of a refused call */
static std::string loss_bound(const Bytes &sheet) {
    std::uint32_t factor = 0;
    const std::uint32_t number = pas_loss_bound(pas_to_read(sheet.data(), sheet.size()), sheet.size(), &factor);
    return number != PAS_OK ? "refused " + std::to_string(number) : "factor " + std::to_string(factor);
}

int main() {
    /* two bidders that bid 5 and 6 for one place of effect 1 */
    const Bytes sheet = {'P', 'A', 'S', 1, 0, 2, 1, 0, 0, 1, 0, 0, 0, 5, 0, 0, 0, 6, 0, 0, 0};
    Bytes none;
    Bytes result(PAS_PLACE_LENGTH);

    std::cout << "an empty sheet: " << check(none) << '\n';
    std::cout << "an empty result: " << play(sheet, none) << '\n';
    std::cout << "both empty: " << play(none, none) << '\n';
    std::cout << "neither: " << play(sheet, result);
    std::cout << ", bidder " << int{result[0]} << " for " << int{result[1]} << '\n';

    const Floors floors = {7};
    const Floors no_floors;
    std::cout << "no floors: " << play(sheet, no_floors, result) << '\n';
    std::cout << "no floors and both empty: " << play(none, no_floors, none) << '\n';
    std::cout << "a floor of 7: " << play(sheet, floors, result) << ", bidder " << int{result[0]} << '\n';

    /* the sheet with bidder 1 barred from place 1, twice, and once in version 2 */
    const Bytes twice = {'P', 'A', 'S', 1, 0, 2, 1, 2, 0, 1, 0, 0, 0, 5, 0, 0, 0, 6, 0, 0, 0, 1, 1, 0, 0, 1, 1, 0, 0};
    const Bytes once = {'P', 'A', 'S', 2, 0, 2, 1, 1, 0, 1, 0, 0, 0, 1, 0, 0, 0, 5, 0, 0, 0, 6, 0, 0, 0, 1, 1, 0, 0};
    std::cout << "one sheet for one round: " << (canonical(twice) == once && canonical(once) == once ? "yes" : "no");
    std::cout << ", another for another: " << (canonical(sheet) != once ? "yes" : "no");
    std::cout << ", none for none: " << (canonical(none).empty() ? "yes" : "no") << '\n';

    /* bidder 1 of two takes the first of two places only, and minds bidder 2 there */
    const Bytes terms = {1, 0, 2, 1, 1, 2, 0, 0};
    std::cout << "terms: " << (slot_terms(2, 1, 1, {0, 1}) == terms ? "as expected" : "others");
    std::cout << ", that ask nothing: " << slot_terms(2, 1, 2, {0, 0}).size() << " bytes";
    std::uint32_t count = 7;
    const std::uint32_t refused = pas_slot_terms(2, 2, 1, 1, pas_to_read(none.data(), none.size()), none.size(),
                                                 pas_to_write(none.data(), none.size()), none.size(), &count);
    std::cout << ", without bars: " << refused << ", count still " << count << '\n';

    /* bidder 2 of two stands only above 1; then each of them only above the other */
    const Bytes above = {2, 2, 1, 1};
    std::cout << "rivals: " << (above_terms(2, 2, 2, {1, 1}) == above ? "as expected" : "others");
    std::cout << ", none: " << above_terms(2, 2, 2, none).size() << " bytes\n";
    Bytes order(2);
    std::cout << "sharing: " << share_page(2, 2, {1, 2}, {0, 1, 1}, order);
    std::cout << ", " << int{order[0]} << " above " << int{order[1]};
    std::cout << ", each above the other: " << share_page(2, 2, {1, 2}, {1, 2, 1, 1}, none);
    std::cout << ", nobody: " << share_page(2, 2, none, {0, 0}, none);
    std::cout << ", no sets: " << share_page(2, 2, none, none, none) << '\n';

    /* nobody names a rival; a condition of another kind; no sheet */
    std::cout << "loss: " << loss_bound(sheet) << ", of other lists " << loss_bound(once);
    std::cout << ", of an empty sheet " << loss_bound(none) << '\n';

    /* the pointers that the calls get: never null, and the vector's own where it has bytes */
    const bool kept = pas_to_read(sheet.data(), sheet.size()) == sheet.data() &&
                      pas_to_write(result.data(), result.size()) == result.data() &&
                      pas_to_read_floors(floors.data(), floors.size()) == floors.data();
    const bool never_null = pas_to_read(nullptr, 0) != nullptr && pas_to_write(nullptr, 0) != nullptr &&
                            pas_to_read_floors(nullptr, 0) != nullptr;
    std::cout << "pointers: " << (kept ? "kept" : "lost") << ", " << (never_null ? "never null" : "null") << '\n';
    return 0;
}
