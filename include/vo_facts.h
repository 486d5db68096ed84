/*
 * Register facts of a routing script: the C interface of libvo_facts.a, which bin/build-lib makes.
 *
 * docs/FORMAT.md has the form of a sheet byte by byte, what each number of an answer means and what it leaves in the lent
 * memory; docs/USING.md explains what the facts mean. "Document 01" is the contract of the project, which docs/FORMAT.md
 * states in the project's own words; 1 to 9 are the numbers of its questions.
 *
 * How memory is lent. A slice is two arguments: a pointer to its first element, then the number of its elements (not of
 * bytes). Nothing is allocated, nothing is kept after a call, and there is no state: calls on different memory may run
 * at the same time in different threads.
 *
 * What the caller owes, since no function can ask it:
 *   - each length is true: that many elements lie behind the pointer, and the function may use them all;
 *   - each pointer is aligned for its elements and not null, also where the length is 0 (nothing is used then);
 *   - no two slices of one call overlap where one of them is not const;
 *   - nothing else writes what is lent, or reads what is lent without const, before the call returns.
 * Everything else a function asks itself: the bytes of a sheet, the lengths and the content of what is lent may be
 * anything.
 */
#ifndef VO_FACTS_H
#define VO_FACTS_H

#include <stddef.h>
#include <stdint.h>

#ifdef __cplusplus
extern "C" {
#endif

/*
 * The number of this interface: 1, and one more with each change of a function, of a constant or of what one of them
 * means. vo_facts_version() is the archive's own number: where the two differ, header and archive do not belong together.
 */
#define VO_FACTS_VERSION 1

/* What vo_facts_analyze returns, and answer[0]. 1 to 8 are the numbers of document 01's questions. */
enum {
    VO_FACTS_ANALYZED = 0,       /* the tables hold the facts */
    VO_FACTS_NO_HEAD = 1,        /* the sheet has fewer than 40 bytes */
    VO_FACTS_SIZE_LIMIT = 2,     /* a size is past its limit */
    VO_FACTS_LENGTH = 3,         /* the length is not what the sizes give */
    VO_FACTS_SUMS = 4,           /* write counts do not sum to w, or layout lengths to q */
    VO_FACTS_KINDS = 5,          /* a kind byte is not named, or a used layout number is not below y */
    VO_FACTS_CLOSURE_ROOM = 6,   /* marks or stack has fewer than L elements */
    VO_FACTS_OVER_BUDGET = 7,    /* what is left does not cover a charge */
    VO_FACTS_NO_ROOM = 8,        /* an output, the row scratch or the work list is too short */
    VO_FACTS_DAMAGED = 9,        /* lookups: the tables are not ones that an analysis leaves */
    VO_FACTS_NONE = 254,         /* lookups: no fact; vo_facts_lowest_layout: no such layout. It is no refusal */
    VO_FACTS_ANSWER_TOO_SHORT = 255 /* answer has fewer than 12 elements, or out fewer than the function writes */
};

/* The elements of answer. What an outcome does not have is 0. */
enum {
    VO_FACTS_NUMBER = 0,          /* what the function returns */
    VO_FACTS_CONSTANT_SLOTS = 1,  /* s: tracked slots of the constant analysis; 0 but on success, as the next five */
    VO_FACTS_CONSTANT_POPS = 2,   /* entries that it took from its work list */
    VO_FACTS_INDEX_SLOTS = 3,
    VO_FACTS_INDEX_POPS = 4,
    VO_FACTS_CONTAINER_SLOTS = 5,
    VO_FACTS_CONTAINER_POPS = 6,
    VO_FACTS_BYTES_LEFT = 7,      /* the budget left; after 1 to 6 the one that was given */
    VO_FACTS_WORK_LEFT = 8,
    VO_FACTS_STAGE = 9,           /* 7 only: 1 flow graph, 2 dependencies, 3 constant, 4 index, 5 container */
    VO_FACTS_REQUESTED = 10,      /* 7 only: the charge, in the unit that was charged */
    VO_FACTS_REMAINING = 11,      /* 7 only: what was left for it */
    VO_FACTS_ANSWER_LENGTH = 12
};

/* The elements of out that vo_facts_room writes. */
enum {
    VO_FACTS_ROOM_INSTRUCTIONS = 0,    /* n */
    VO_FACTS_ROOM_CONSTANT_SLOTS = 1,  /* s of each analysis */
    VO_FACTS_ROOM_INDEX_SLOTS = 2,
    VO_FACTS_ROOM_CONTAINER_SLOTS = 3,
    VO_FACTS_ROOM_LENGTH = 4
};

/*
 * The kinds of facts in a table. A value is 0 where none is said.
 *
 * A container fact names layouts by the numbers that the sheet stored with it. Layouts are equal by content, so equal
 * layouts may carry different numbers, and facts must not be compared by value: two container facts are the same exactly
 * where their kinds are equal and vo_facts_lowest_layout gives equal numbers for their layouts, first and second.
 */
enum {
    VO_FACTS_UNKNOWN = 0,
    VO_FACTS_CONFLICT = 1,
    VO_FACTS_CONSTANT = 2,           /* constant: the value */
    VO_FACTS_CONSTANT_NEGATIVE = 3,  /* constant: the value plus 2^64 */
    VO_FACTS_CHECKED = 2,            /* index: the length that it was checked against */
    VO_FACTS_MAP = 2,                /* container: layout of keys x 65,536 + layout of values */
    VO_FACTS_ITERATOR = 3,           /* container: the same */
    VO_FACTS_QUEUE = 4               /* container: layout of elements x 65,536 */
};

/* A fresh budget, of bytes and of work each. */
#define VO_FACTS_FRESH_BUDGET UINT64_C(268435456)

/*
 * The three analyses of a sheet.
 *
 *   sheet        the script, in the form of docs/FORMAT.md; n is its number of instructions, L that of its local slots
 *   bytes, work  the budget: any two numbers
 *
 * The outputs of each analysis, constant, index and container; s is the number of slots that it tracks:
 *   .._slots     at least s: the tracked slots, ascending
 *   .._present   at least n: 1 where the instruction has a row, else 0
 *   .._kinds     at least n x s: the kinds, row by row; the row of an absent instruction is 0
 *   .._values    at least n x s: the values, in the same places
 *
 * Scratch, which the three analyses share:
 *   marks, stack at least L each
 *   row_kinds, row_values
 *                at least the largest s each
 *   work_list    at least n x (1 + 2 x s) for the largest s, where n and s are above 0
 *
 *   answer       at least 12: the elements named above
 *
 * Returns 0, or the number of the first question that refuses:
 *   0            the front of each output holds the table; all that lies behind it and all scratch is 0
 *   1 to 6       nothing lent has changed but answer
 *   7, 8         every output and all scratch is 0 over its whole length
 *   255          answer is too short; nothing lent has changed, answer neither
 * answer[0] to answer[11] are written on every outcome but 255, and what lies behind them is left as it was.
 *
 * No s is told with 8: vo_facts_room tells n and the three s before the call, so that a caller lends what is needed.
 */
uint8_t vo_facts_analyze(
    const uint8_t *sheet, size_t sheet_length,
    uint64_t bytes, uint64_t work,
    uint16_t *constant_slots, size_t constant_slots_length,
    uint8_t *constant_present, size_t constant_present_length,
    uint8_t *constant_kinds, size_t constant_kinds_length,
    uint64_t *constant_values, size_t constant_values_length,
    uint16_t *index_slots, size_t index_slots_length,
    uint8_t *index_present, size_t index_present_length,
    uint8_t *index_kinds, size_t index_kinds_length,
    uint64_t *index_values, size_t index_values_length,
    uint16_t *container_slots, size_t container_slots_length,
    uint8_t *container_present, size_t container_present_length,
    uint8_t *container_kinds, size_t container_kinds_length,
    uint64_t *container_values, size_t container_values_length,
    uint8_t *marks, size_t marks_length,
    uint16_t *stack, size_t stack_length,
    uint8_t *row_kinds, size_t row_kinds_length,
    uint64_t *row_values, size_t row_values_length,
    uint16_t *work_list, size_t work_list_length,
    uint64_t *answer, size_t answer_length);

/*
 * How much memory a call needs: n, and the s of each analysis, by its closure alone and without a budget. Whatever budget
 * a call of vo_facts_analyze ends with facts from, its s are these.
 *
 *   sheet        the script
 *   marks, stack scratch, at least L each: the same that vo_facts_analyze is lent. L is the sheet's seventh number (the
 *                four bytes from 24 up), at most 65,535
 *   out          at least 4: the elements named above
 *
 * Returns
 *   0            out[0] to out[3] are written, and what lies behind them is left as it was; marks and stack are 0 over
 *                their whole length
 *   1 to 6       the number of the first question that refuses; nothing lent has changed
 *   255          out is too short; this is asked first, and nothing lent has changed
 *
 * There is no budget that would end it early: it follows at most 2 x n x L edges in each analysis, which may take seconds
 * on the largest scripts.
 */
uint8_t vo_facts_room(
    const uint8_t *sheet, size_t sheet_length,
    uint8_t *marks, size_t marks_length,
    uint16_t *stack, size_t stack_length,
    uint64_t *out, size_t out_length);

/*
 * The lowest number of a layout with the content of this one: two layouts are equal exactly where it is the same number.
 * A value v of a container table names the layouts v / 65536 and, but for a queue, v % 65536.
 *
 *   sheet        the script
 *   layout       any number
 *   out          at least 1
 *
 * Returns
 *   0            out[0] is the lowest number, and what lies behind it is left as it was
 *   1 to 5       the number of the first question that refuses the sheet
 *   254          the sheet has no layout of this number
 *   255          out is too short; this is asked first
 * But for 0, out is left as it was.
 */
uint8_t vo_facts_lowest_layout(
    const uint8_t *sheet, size_t sheet_length,
    uint64_t layout,
    uint64_t *out, size_t out_length);

/*
 * The fact of a slot right before instruction pc, from the tables of one analysis. What is lent are the used parts:
 *
 *   slots        the s tracked slots, exactly
 *   present      the n present bytes, exactly
 *   kinds        the n x s kinds, exactly
 *   values       the n x s values, exactly
 *   pc           any number
 *   slot         any slot
 *   out          at least 2: the fact's kind and value, on 0 only; else, and behind them, it is left as it was
 *
 * Returns
 *   0            out[0] is the kind, out[1] the value
 *   254          none: the slot is not tracked, the instruction is absent, or pc is n or more
 *   9            the slots do not ascend strictly, kinds or values are not n x s long, the present byte of a pc below n
 *                is neither 0 nor 1, or the kind in a present row is not one of this analysis
 *   255          out is too short; this is asked first
 */
uint8_t vo_facts_constant(
    const uint16_t *slots, size_t slots_length,
    const uint8_t *present, size_t present_length,
    const uint8_t *kinds, size_t kinds_length,
    const uint64_t *values, size_t values_length,
    uint64_t pc, uint16_t slot,
    uint64_t *out, size_t out_length);

/* The same of the index analysis. */
uint8_t vo_facts_index_check(
    const uint16_t *slots, size_t slots_length,
    const uint8_t *present, size_t present_length,
    const uint8_t *kinds, size_t kinds_length,
    const uint64_t *values, size_t values_length,
    uint64_t pc, uint16_t slot,
    uint64_t *out, size_t out_length);

/* The same of the container analysis. */
uint8_t vo_facts_container(
    const uint16_t *slots, size_t slots_length,
    const uint8_t *present, size_t present_length,
    const uint8_t *kinds, size_t kinds_length,
    const uint64_t *values, size_t values_length,
    uint64_t pc, uint16_t slot,
    uint64_t *out, size_t out_length);

/*
 * The one known constant that a slot holds before every present instruction but instruction 0, from the constant
 * tables; none (254) where there is no such instruction or they do not all show the same known constant. Arguments and
 * returns as above; 9 is asked of every instruction.
 */
uint8_t vo_facts_fixed(
    const uint16_t *slots, size_t slots_length,
    const uint8_t *present, size_t present_length,
    const uint8_t *kinds, size_t kinds_length,
    const uint64_t *values, size_t values_length,
    uint16_t slot,
    uint64_t *out, size_t out_length);

/*
 * Whether an analysis reached instruction pc, from its n present bytes: 1 yes; 0 no, or pc is n or more; 9 where the
 * byte is neither 0 nor 1.
 */
uint8_t vo_facts_is_reachable(const uint8_t *present, size_t present_length, uint64_t pc);

/* The number of the archive's interface, to be held against VO_FACTS_VERSION. */
uint64_t vo_facts_version(void);

#ifdef __cplusplus
}
#endif

#endif
