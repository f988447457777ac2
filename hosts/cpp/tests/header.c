/* The header as C99 sees it: what it says of itself, and answers as they come by value. */

#include <stdio.h>
#include <string.h>

#include "tikomuci.h"

const char *header_fault(void);

static int is(const char *text, const char *wanted) { return strcmp(text, wanted) == 0; }

static int version_is_that_of_the_text(void) {
    char text[32];
    sprintf(text, "%d.%d.%d", TIKOMUCI_VERSION_MAJOR, TIKOMUCI_VERSION_MINOR, TIKOMUCI_VERSION_PATCH);
    return is(text, TIKOMUCI_VERSION);
}

static int archive_has_the_number(void) { return tikomuci_abi() == TIKOMUCI_ABI && tikomuci_abi_1() == TIKOMUCI_ABI; }

static int names_are_there(void) {
    return is(tikomuci_refusal_name(0), "accepted") && is(tikomuci_refusal_name(TIKOMUCI_REFUSAL_ABSENT), "absent") &&
           is(tikomuci_refusal_name(TIKOMUCI_REFUSAL_NO_SLOT), "no-slot") &&
           is(tikomuci_refusal_name(TIKOMUCI_REFUSAL_OVERLAP), "overlap") &&
           is(tikomuci_refusal_name(UINT64_MAX), "unknown") &&
           is(tikomuci_refusal_text(TIKOMUCI_REFUSAL_ABSENT), "what was asked for is not there") &&
           is(tikomuci_refusal_text(15), "no call answers this number") &&
           is(tikomuci_stage_name(TIKOMUCI_STAGE_CALL), "call") && is(tikomuci_stage_name(11), "unknown") &&
           is(tikomuci_stage_text(TIKOMUCI_STAGE_DEBUG), "in the Debug section");
}

static int limits_are_powers_of_two(void) {
    return TIKOMUCI_MAX_FILE_BYTES == (uint64_t)1 << 30 && TIKOMUCI_MAX_POOL_BYTES == (uint64_t)1 << 30 &&
           TIKOMUCI_MAX_SHEET_WORDS == (uint64_t)1 << 26;
}

static int has(tikomuci_answer answer, uint64_t refusal, uint64_t stage, uint64_t first, uint64_t second) {
    return answer.refusal == refusal && answer.stage == stage && answer.first == first && answer.second == second;
}

static int answers_come_by_value(void) {
    uint8_t out[3] = {0, 0, 0};
    return has(tikomuci_write_varint(out, sizeof out, 1, 300), 0, 0, 3, 0) && out[1] == 0xAC && out[2] == 0x02 &&
           has(tikomuci_read_varint(out, sizeof out, 1), 0, 0, 300, 3) &&
           has(tikomuci_write_varint(out, sizeof out, 2, 300), TIKOMUCI_REFUSAL_FULL, TIKOMUCI_STAGE_CALL, 0, 0) &&
           has(tikomuci_measure(out, sizeof out), TIKOMUCI_REFUSAL_SHORT, TIKOMUCI_STAGE_HEADER, 0, 0) &&
           tikomuci_remaining(out, sizeof out, 1) == 2 && tikomuci_f8e5m2(0) == 0;
}

static int cache_is_empty(void) {
    uint8_t slots[TIKOMUCI_CACHE_SLOTS] = {0};
    uint8_t owners[TIKOMUCI_CACHE_SLOTS * TIKOMUCI_OWNER_BYTES] = {0};
    return has(tikomuci_cache_put(slots, sizeof slots, owners, sizeof owners, 1, NULL, 0), TIKOMUCI_REFUSAL_SHORT,
               TIKOMUCI_STAGE_HEADER, 0, 0) &&
           has(tikomuci_cache_fetch(slots, sizeof slots, owners, sizeof owners, 1, 0), TIKOMUCI_REFUSAL_ABSENT,
               TIKOMUCI_STAGE_CALL, 0, 0) &&
           has(tikomuci_session_drop(slots, sizeof slots, owners, sizeof owners, 1), TIKOMUCI_REFUSAL_SHEET,
               TIKOMUCI_STAGE_CALL, 0, 0) &&
           TIKOMUCI_SESSION_SLOTS == 64 && TIKOMUCI_OWNER_BYTES == 3 * sizeof(uint64_t);
}

/* A sheet with one type, in words as the processors that the library is for have them: little-endian. */
static int type_has_a_text(void) {
    const uint64_t words[] = {13, 4, 0, 0, 0, 19, 0, 19, 1, 21, 0, 21, 0, 21, 0, 21, 0, 21, 0, 1, TIKOMUCI_TYPE_F32};
    const uint8_t *const sheet = (const uint8_t *)words;
    uint8_t text[3];
    return has(tikomuci_type_text(sheet, sizeof words, 0, text, sizeof text), 0, 0, 3, 0) &&
           memcmp(text, "f32", sizeof text) == 0 &&
           has(tikomuci_type_text(sheet, sizeof words, 0, text, 2), TIKOMUCI_REFUSAL_FULL, TIKOMUCI_STAGE_CALL, 0, 0) &&
           TIKOMUCI_TYPE_TEXT_STACK(sizeof text) ==
               TIKOMUCI_TYPE_TEXT_STACK_BASE + 3 * (size_t)TIKOMUCI_TYPE_TEXT_STACK_LEVEL;
}

/* What does not hold, or null. */
const char *header_fault(void) {
    if (!version_is_that_of_the_text()) {
        return "the version in numbers is that of the text";
    }
    if (!archive_has_the_number()) {
        return "the number of the interface";
    }
    if (!names_are_there()) {
        return "the names of refusals and stages";
    }
    if (!limits_are_powers_of_two()) {
        return "the limits";
    }
    if (!cache_is_empty()) {
        return "an empty cache";
    }
    if (!type_has_a_text()) {
        return "the text of a type";
    }
    return answers_come_by_value() ? NULL : "answers by value";
}
