/* A loader in C: it reads a sheet, asks how much memory the call needs, lends exactly that, and prints where a slot holds
 * one known number: the instruction, and the number that the slot holds right before it.
 *
 *     cc -Iinclude examples/loader.c build/libvo_facts.a -lm -o build/loader
 *     build/loader examples/worked.sheet 0
 *
 * Exit status: 0; 1 where there are no facts ("refused" with document 01's number, or "too large"); 2 where it could not
 * be tried or told, with the reason on standard error.
 */
#include "vo_facts.h"

#include <errno.h>
#include <inttypes.h>
#include <stdio.h>
#include <stdlib.h>
#include <string.h>

/* No sheet that is accepted is longer, so a longer file need not be read whole: it is refused. */
#define LONGEST 262144
/* What this loader grants one script, in cells of a table. */
#define MOST_CELLS 1000000

struct script {
    const uint8_t *sheet;
    size_t length;
    size_t n;
    size_t l;
};

struct table {
    uint16_t *slots;
    uint8_t *present, *kinds;
    uint64_t *values;
    size_t s;
};

/* Pointers are not null, also where there is nothing behind them. */
static void *memory(size_t count, size_t size) {
    void *got = calloc(count > 0 ? count : 1, size);
    if (got == NULL) {
        fputs("loader: no memory\n", stderr);
        exit(2);
    }
    return got;
}

static struct table table(size_t n, size_t s) {
    struct table made = {memory(s, 2), memory(n, 1), memory(n * s, 1), memory(n * s, 8), s};
    return made;
}

/* The slot that a word names, or -1. strtoul alone would take a sign, a space before the number and words behind it. */
static long slot_of(const char *word) {
    char *end;
    if (word[0] < '0' || word[0] > '9')
        return -1;
    errno = 0;
    unsigned long slot = strtoul(word, &end, 10);
    return errno == 0 && *end == '\0' && slot <= 65535 ? (long)slot : -1;
}

/* Reads a file into sheet. A folder can be opened on some systems, and shows only when it is read. */
static int read_sheet(const char *path, uint8_t *sheet, size_t *length) {
    FILE *file = fopen(path, "rb");
    int bad = file == NULL;
    if (!bad) {
        *length = fread(sheet, 1, LONGEST, file);
        bad = ferror(file);
    }
    if (bad)
        fprintf(stderr, "loader: %s cannot be read: %s\n", path, strerror(errno));
    if (file != NULL)
        fclose(file);
    return !bad;
}

/* The three analyses: the constant table where they end with facts, and else the number of the refusal. */
static uint8_t analyze(const struct script *script, const uint64_t *room, size_t most, uint8_t *marks, uint16_t *stack,
                       struct table *constant) {
    size_t n = script->n, l = script->l, list = n * (1 + 2 * most);
    struct table index = table(n, room[VO_FACTS_ROOM_INDEX_SLOTS]);
    struct table container = table(n, room[VO_FACTS_ROOM_CONTAINER_SLOTS]);
    uint64_t answer[VO_FACTS_ANSWER_LENGTH];
    *constant = table(n, room[VO_FACTS_ROOM_CONSTANT_SLOTS]);
    return vo_facts_analyze(
        script->sheet, script->length, VO_FACTS_FRESH_BUDGET, VO_FACTS_FRESH_BUDGET,
        constant->slots, constant->s, constant->present, n, constant->kinds, n * constant->s, constant->values,
        n * constant->s, index.slots, index.s, index.present, n, index.kinds, n * index.s, index.values, n * index.s,
        container.slots, container.s, container.present, n, container.kinds, n * container.s, container.values,
        n * container.s, marks, l, stack, l, memory(most, 1), most, memory(most, 8), most, memory(list, 2), list,
        answer, VO_FACTS_ANSWER_LENGTH);
}

/* Negative numbers are a kind of their own: their value is the number plus 2^64, so 0 - value, which goes round at 2^64,
 * is the number without its sign, also for -2^63, which has no positive int64_t. */
static void print_known(const struct table *constant, size_t n, uint16_t slot) {
    uint64_t fact[2];
    for (size_t pc = 0; pc < n; pc++) {
        uint8_t number = vo_facts_constant(constant->slots, constant->s, constant->present, n, constant->kinds,
                                           n * constant->s, constant->values, n * constant->s, pc, slot, fact, 2);
        if (number == 0 && fact[0] == VO_FACTS_CONSTANT)
            printf("%zu %" PRIu64 "\n", pc, fact[1]);
        if (number == 0 && fact[0] == VO_FACTS_CONSTANT_NEGATIVE)
            printf("%zu -%" PRIu64 "\n", pc, UINT64_C(0) - fact[1]);
    }
}

/* Prints the facts of a sheet, or why there are none. */
static int print_sheet(const uint8_t *sheet, size_t length, uint16_t slot) {
    /* L, the seventh of the ten sizes; a sheet with a larger one than 65,535 is refused */
    size_t l = length < 40 ? 0 : sheet[24] + 256u * sheet[25], most = 0;
    uint8_t *marks = memory(l, 1);
    uint16_t *stack = memory(l, 2);
    uint64_t room[VO_FACTS_ROOM_LENGTH];
    struct table constant;
    uint8_t number = vo_facts_room(sheet, length, marks, l, stack, l, room, VO_FACTS_ROOM_LENGTH);
    if (number != 0) {
        printf("refused %d\n", number);
        return 1;
    }

    struct script script = {sheet, length, room[VO_FACTS_ROOM_INSTRUCTIONS], l};
    for (int which = VO_FACTS_ROOM_CONSTANT_SLOTS; which < VO_FACTS_ROOM_LENGTH; which++)
        most = room[which] > most ? room[which] : most;
    if (script.n * most > MOST_CELLS) {
        puts("too large");
        return 1;
    }
    number = analyze(&script, room, most, marks, stack, &constant);
    if (number != VO_FACTS_ANALYZED) {
        printf("refused %d\n", number); /* 7: the budget; 8 cannot be */
        return 1;
    }
    print_known(&constant, script.n, slot);
    return 0;
}

int main(int argc, char **argv) {
    static uint8_t sheet[LONGEST];
    size_t length = 0;
    if (argc != 3) {
        fputs("usage: loader FILE SLOT\n", stderr);
        return 2;
    }
    if (vo_facts_version() != VO_FACTS_VERSION) {
        fprintf(stderr, "loader: it was compiled for interface %d, and the archive has %" PRIu64 "\n", VO_FACTS_VERSION,
                vo_facts_version());
        return 2;
    }
    long slot = slot_of(argv[2]);
    if (slot < 0) {
        fprintf(stderr, "loader: SLOT is a number from 0 to 65535, not '%s'\n", argv[2]);
        return 2;
    }
    if (!read_sheet(argv[1], sheet, &length))
        return 2;

    int status = print_sheet(sheet, length, (uint16_t)slot);
    /* What is printed may wait in a buffer, so a full disk shows here. */
    if (fflush(stdout) != 0 || ferror(stdout)) {
        fputs("loader: standard output cannot be written\n", stderr);
        return 2;
    }
    return status;
}
