/* The constants of include/vo_facts.h, and document 01's worked sheet through it, as a loader written in C would call it.
 * Every buffer has another length, so that two of them in each other's place would show. */
#include "vo_facts.h"

#include <inttypes.h>
#include <stdio.h>
#include <string.h>

/* L 2; LoadInt a 0, 7; JumpIfNot a 1, +2; LoadInt a 0, 9; IndexCheck a 1, b 0; Return; ranges (0, 1) for 0 and 2 */
static const uint8_t sheet[] = {
    5, 0, 0, 0, 2, 0, 0, 0, 0, 0, 0, 0, 0, 0, 0, 0, 0, 0, 0, 0, 0, 0, 0, 0, 2, 0, 0, 0, 0, 0, 0, 0, 0, 0, 0, 0, 0, 0, 0, 0,
    1, 0, 0, 0, 7, 0, 0, 0, 59, 0, 1, 0, 2, 0, 0, 0, 1, 0, 0, 0, 9, 0, 0, 0, 121, 0, 1, 0, 0, 0, 0, 0, 64, 0, 0, 0, 0, 0, 0, 0,
    0, 0, 0, 0, 0, 0, 0, 0, 0, 0, 0, 0, 0, 0, 0, 0, 0, 0, 0, 0, 0, 0, 0, 0, 0,
    1, 0, 0, 0, 1, 0, 0, 0, 0, 0, 0, 0, 0, 0, 1, 0, 0, 0, 1, 0, 0, 0};

static uint16_t constant_slots[1], index_slots[2], container_slots[3], stack[4], work_list[15];
static uint8_t constant_present[6], index_present[7], container_present[8], marks[9], row_kinds[10];
static uint8_t constant_kinds[11], index_kinds[12], container_kinds[13];
static uint64_t constant_values[14], index_values[16], container_values[17], row_values[18];

#define LENT(slice) slice, sizeof(slice) / sizeof(*(slice))

static uint8_t analyze(uint64_t bytes, uint64_t *answer, size_t answer_length) {
    return vo_facts_analyze(
        LENT(sheet), bytes, VO_FACTS_FRESH_BUDGET,
        LENT(constant_slots), LENT(constant_present), LENT(constant_kinds), LENT(constant_values),
        LENT(index_slots), LENT(index_present), LENT(index_kinds), LENT(index_values),
        LENT(container_slots), LENT(container_present), LENT(container_kinds), LENT(container_values),
        LENT(marks), LENT(stack), LENT(row_kinds), LENT(row_values), LENT(work_list), answer, answer_length);
}

static int failures;

static void expect(int good, const char *what) {
    if (!good) {
        printf("header.c: %s\n", what);
        failures++;
    }
}

/* Every constant of the header with its number. The archive has the numbers only, so a name that stands for another one
 * would be found by nothing else. tests/interface asks that no name is missing here. */
#define HELD(name, must) {#name, name, must}
static const struct {
    const char *name;
    uint64_t is, must;
} constants[] = {
    HELD(VO_FACTS_VERSION, 1),
    HELD(VO_FACTS_FRESH_BUDGET, 268435456),

    HELD(VO_FACTS_ANALYZED, 0),
    HELD(VO_FACTS_NO_HEAD, 1),
    HELD(VO_FACTS_SIZE_LIMIT, 2),
    HELD(VO_FACTS_LENGTH, 3),
    HELD(VO_FACTS_SUMS, 4),
    HELD(VO_FACTS_KINDS, 5),
    HELD(VO_FACTS_CLOSURE_ROOM, 6),
    HELD(VO_FACTS_OVER_BUDGET, 7),
    HELD(VO_FACTS_NO_ROOM, 8),
    HELD(VO_FACTS_DAMAGED, 9),
    HELD(VO_FACTS_NONE, 254),
    HELD(VO_FACTS_ANSWER_TOO_SHORT, 255),

    HELD(VO_FACTS_NUMBER, 0),
    HELD(VO_FACTS_CONSTANT_SLOTS, 1),
    HELD(VO_FACTS_CONSTANT_POPS, 2),
    HELD(VO_FACTS_INDEX_SLOTS, 3),
    HELD(VO_FACTS_INDEX_POPS, 4),
    HELD(VO_FACTS_CONTAINER_SLOTS, 5),
    HELD(VO_FACTS_CONTAINER_POPS, 6),
    HELD(VO_FACTS_BYTES_LEFT, 7),
    HELD(VO_FACTS_WORK_LEFT, 8),
    HELD(VO_FACTS_STAGE, 9),
    HELD(VO_FACTS_REQUESTED, 10),
    HELD(VO_FACTS_REMAINING, 11),
    HELD(VO_FACTS_ANSWER_LENGTH, 12),

    HELD(VO_FACTS_ROOM_INSTRUCTIONS, 0),
    HELD(VO_FACTS_ROOM_CONSTANT_SLOTS, 1),
    HELD(VO_FACTS_ROOM_INDEX_SLOTS, 2),
    HELD(VO_FACTS_ROOM_CONTAINER_SLOTS, 3),
    HELD(VO_FACTS_ROOM_LENGTH, 4),

    HELD(VO_FACTS_UNKNOWN, 0),
    HELD(VO_FACTS_CONFLICT, 1),
    HELD(VO_FACTS_CONSTANT, 2),
    HELD(VO_FACTS_CONSTANT_NEGATIVE, 3),
    HELD(VO_FACTS_CHECKED, 2),
    HELD(VO_FACTS_MAP, 2),
    HELD(VO_FACTS_ITERATOR, 3),
    HELD(VO_FACTS_QUEUE, 4)};

static void names(void) {
    for (size_t i = 0; i < sizeof constants / sizeof *constants; i++)
        if (constants[i].is != constants[i].must) {
            printf("header.c: %s is %" PRIu64 ", not %" PRIu64 "\n", constants[i].name, constants[i].is, constants[i].must);
            failures++;
        }
}

/* The answer of a call that ended with facts, the tables and the lookups. */
static void facts(void) {
    static const uint64_t must[VO_FACTS_ANSWER_LENGTH] = {0, 1, 7, 0, 0, 0, 0, 268435158, 268435444, 0, 0, 0};
    static const uint8_t kinds[11] = {0, 2, 2, 1, 1};
    static const uint64_t values[14] = {0, 7, 7};
    uint64_t answer[VO_FACTS_ANSWER_LENGTH], out[2];
    memset(constant_values, 255, sizeof constant_values);
    memset(work_list, 255, sizeof work_list);
    expect(analyze(VO_FACTS_FRESH_BUDGET, LENT(answer)) == VO_FACTS_ANALYZED, "the worked sheet is refused");
    expect(memcmp(answer, must, sizeof must) == 0, "its answer differs");
    expect(memcmp(constant_kinds, kinds, sizeof kinds) == 0, "its kinds differ");
    expect(memcmp(constant_values, values, sizeof values) == 0, "its values differ");
    expect(work_list[14] == 0, "its work list is not cleared");

    size_t s = answer[VO_FACTS_CONSTANT_SLOTS], n = 5;
    expect(vo_facts_constant(constant_slots, s, constant_present, n, constant_kinds, n * s, constant_values, n * s, 1, 0,
                             LENT(out)) == 0 && out[0] == VO_FACTS_CONSTANT && out[1] == 7, "its fact at 1 differs");
    expect(vo_facts_constant(constant_slots, s, constant_present, n, constant_kinds, n * s, constant_values, n * s, 5, 0,
                             LENT(out)) == VO_FACTS_NONE, "a fact past the code");
    expect(vo_facts_fixed(constant_slots, s, constant_present, n, constant_kinds, n * s, constant_values, n * s, 0,
                          LENT(out)) == VO_FACTS_NONE, "slot 0 is fixed");
    expect(vo_facts_index_check(index_slots, 0, index_present, n, index_kinds, 0, index_values, 1, 0, 0, LENT(out))
               == VO_FACTS_DAMAGED, "values of another length are not refused");
    expect(vo_facts_container(container_slots, 0, container_present, n, container_kinds, 0, container_values, 0, 0, 0, out,
                              1) == VO_FACTS_ANSWER_TOO_SHORT, "an out of one element is used");
    expect(vo_facts_is_reachable(constant_present, n, 4) == 1, "instruction 4 is not reached");
    expect(vo_facts_is_reachable(index_present, n, 0) == 0, "an analysis of no slots reached an instruction");
}

/* A refused charge, and an answer that is too short. */
static void refusals(void) {
    static const uint64_t must[VO_FACTS_ANSWER_LENGTH] = {7, 0, 0, 0, 0, 0, 0, 119, 268435456, 1, 120, 119};
    uint64_t answer[VO_FACTS_ANSWER_LENGTH];
    expect(analyze(119, answer, 11) == VO_FACTS_ANSWER_TOO_SHORT, "an answer of 11 elements is used");
    expect(constant_kinds[1] == VO_FACTS_CONSTANT, "a call without an answer changed a table");
    expect(analyze(119, LENT(answer)) == VO_FACTS_OVER_BUDGET, "119 bytes cover the flow graph");
    expect(memcmp(answer, must, sizeof must) == 0, "the refusal's answer differs");
    expect(constant_kinds[1] == 0, "the refusal left a table");
}

/* A sheet with no code and three layouts, of which the first and the last have the same slot kinds. */
static const uint8_t layouts[] = {
    0, 0, 0, 0, 0, 0, 0, 0, 0, 0, 0, 0, 0, 0, 0, 0, 3, 0, 0, 0, 4, 0, 0, 0, 0, 0, 0, 0, 0, 0, 0, 0, 0, 0, 0, 0, 0, 0, 0, 0,
    2, 0, 0, 0, 2, 0, 4, 5, 4, 5};

/* What a loader asks beside the call. */
static void loader(void) {
    static const uint64_t must[5] = {5, 1, 0, 0, 7};
    uint64_t out[5] = {7, 7, 7, 7, 7};
    memset(marks, 255, sizeof marks);
    memset(stack, 255, sizeof stack);
    expect(vo_facts_room(sheet, 39, marks, 0, stack, 0, out, 3) == VO_FACTS_ANSWER_TOO_SHORT, "an out of three is used");
    expect(vo_facts_room(sheet, 39, marks, 0, stack, 0, LENT(out)) == VO_FACTS_NO_HEAD, "room for 39 bytes");
    expect(vo_facts_room(LENT(sheet), marks, 1, LENT(stack), LENT(out)) == VO_FACTS_CLOSURE_ROOM, "one mark is enough");
    expect(vo_facts_room(LENT(sheet), LENT(marks), stack, 1, LENT(out)) == VO_FACTS_CLOSURE_ROOM, "one entry is enough");
    expect(marks[0] == 255 && stack[0] == 65535 && out[0] == 7, "a refusal changed what was lent");
    expect(vo_facts_room(LENT(sheet), LENT(marks), LENT(stack), LENT(out)) == 0, "no room is told");
    expect(memcmp(out, must, sizeof must) == 0, "another room is told");
    expect(marks[8] == 0 && stack[3] == 0, "marks or stack are not cleared");

    expect(vo_facts_lowest_layout(sheet, 39, 0, out, 0) == VO_FACTS_ANSWER_TOO_SHORT, "an out of none is used");
    expect(vo_facts_lowest_layout(sheet, 39, 0, LENT(out)) == VO_FACTS_NO_HEAD, "39 bytes have a layout");
    expect(vo_facts_lowest_layout(LENT(sheet), 0, LENT(out)) == VO_FACTS_NONE && out[0] == 5, "the sheet has a layout");
    expect(vo_facts_lowest_layout(LENT(layouts), 3, LENT(out)) == VO_FACTS_NONE && out[0] == 5, "there are four layouts");
    expect(vo_facts_lowest_layout(LENT(layouts), 2, LENT(out)) == 0 && out[0] == 0, "layout 2 is not layout 0");
    expect(vo_facts_lowest_layout(LENT(layouts), 1, LENT(out)) == 0 && out[0] == 1 && out[1] == 1, "layout 1 is layout 0");
    expect(vo_facts_version() == VO_FACTS_VERSION, "header and archive do not belong together");
}

int main(void) {
    names();
    facts();
    refusals();
    loader();
    return failures != 0;
}
