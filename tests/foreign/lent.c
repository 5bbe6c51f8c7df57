/* Asks a command of the library with memory of many sizes, and with buffers that are too short, and looks at what it leaves.
 *
 *     lent ANSWER STATUS NUMBER DEF LEF...
 *
 * ANSWER is the file of the expected answer, STATUS the expected status, NUMBER that of the command with its flags. Each failure has a line, and the last
 * line is 'N passed, M failed'. The exit status is 0 only if some passed and none failed.
 */
#include "lefdef.h"

#include <stdio.h>
#include <stdlib.h>
#include <string.h>

enum { GUARD = 256, FILLED = 0xA5 };

static int passed = 0;
static int failed = 0;

static void count(int holds, const char *what, size_t size)
{
    passed += holds != 0;
    failed += holds == 0;
    if (!holds) {
        printf("FAILED: %s (%zu)\n", what, size);
    }
}

static void *memory_of(size_t size)
{
    void *memory = malloc(size);
    if (memory == NULL) {
        fprintf(stderr, "out of memory\n");
        exit(2);
    }
    return memory;
}

/* Bytes that are filled, between others that are, too. */
struct watched {
    uint8_t *block;
    uint8_t *bytes; /* at a multiple of LEFDEF_UNIT */
    size_t size;
};

static struct watched watched(size_t size)
{
    struct watched it;
    size_t all = size + 2 * GUARD + LEFDEF_UNIT;
    it.block = memory_of(all);
    memset(it.block, FILLED, all);
    it.bytes = it.block + GUARD;
    it.bytes += -(uintptr_t)it.bytes % LEFDEF_UNIT;
    it.size = size;
    return it;
}

static int is_filled(const uint8_t *bytes, size_t length)
{
    size_t at = 0;
    while (at < length && bytes[at] == FILLED) {
        at++;
    }
    return at == length;
}

static int is_kept_around(struct watched it)
{
    return is_filled(it.bytes - GUARD, GUARD) && is_filled(it.bytes + it.size, GUARD);
}

static struct lefdef_text file(const char *path)
{
    FILE *from = fopen(path, "rb");
    long length = from != NULL && fseek(from, 0, SEEK_END) == 0 ? ftell(from) : -1;
    uint8_t *bytes = memory_of(length > 0 ? (size_t)length : 1);
    if (length < 0 || fseek(from, 0, SEEK_SET) != 0 || fread(bytes, 1, (size_t)length, from) != (size_t)length) {
        fprintf(stderr, "cannot read %s\n", path);
        exit(2);
    }
    fclose(from);
    return lefdef_text_of(bytes, (size_t)length);
}

/* A command and its texts. */
struct question {
    uint32_t number;
    const struct lefdef_text *lefs;
    size_t count;
    struct lefdef_text def;
};

/* A status and a text. */
struct answer {
    uint32_t status;
    struct lefdef_text text;
};

/* Asks with a buffer of `room` bytes in memory that is watched, and returns whether the answer is this one, as far as it fits, and no other
 * byte was written. */
static int is_answered(struct question it, struct lefdef_memory memory, size_t room, struct answer answer)
{
    struct watched out = watched(room);
    size_t length = 1;
    size_t fits = answer.text.length < room ? answer.text.length : room;
    uint32_t status = lefdef_run(memory, it.number, it.lefs, it.count, it.def.bytes, it.def.length, out.bytes, room, &length);
    int holds = status == answer.status && length == answer.text.length && memcmp(out.bytes, answer.text.bytes, fits) == 0 &&
                is_filled(out.bytes + fits, room - fits) && is_kept_around(out);
    free(out.block);
    return holds;
}

/* Each size of memory gives this answer or that there is too little memory, and nothing beyond it is written. The greatest gives it. */
static void try_sizes(struct question it, struct answer answer)
{
    static const char line[] = "MEMORY\n";
    struct answer no_memory = {LEFDEF_MEMORY, lefdef_text_of(line, sizeof line - 1)};
    size_t greatest = 20 * it.def.length + (1 << 16);
    size_t room = answer.text.length + 64;
    size_t size = LEFDEF_UNIT;
    int is_enough = 0;
    while (size <= greatest) {
        struct watched region = watched(size);
        struct lefdef_memory memory = lefdef_lend(region.bytes, size);
        is_enough = is_answered(it, memory, room, answer);
        count(is_enough || is_answered(it, memory, room, no_memory), "memory of this size gives another answer", size);
        count(is_kept_around(region), "memory of this size is written beyond its ends", size);
        free(region.block);
        size = size < 64 * LEFDEF_UNIT ? size + LEFDEF_UNIT : size + size / 16 / LEFDEF_UNIT * LEFDEF_UNIT;
    }
    count(is_enough, "the greatest memory is too little", greatest);
}

/* A buffer that is too short gets the front of the answer, and one that is longer keeps its other bytes. */
static void try_buffers(struct question it, struct answer answer, struct lefdef_memory memory)
{
    size_t length = answer.text.length;
    size_t rooms[] = {0, 1, length / 2, length - 1, length, length + 1, 2 * length};
    for (size_t at = 0; at < sizeof rooms / sizeof rooms[0]; at++) {
        count(is_answered(it, memory, rooms[at], answer), "a buffer of this size is filled otherwise", rooms[at]);
    }
}

/* A number that is no command, or has flags that do not go together, has no answer. */
static void try_numbers(struct question it, struct lefdef_memory memory)
{
    static const uint32_t numbers[] = {
        LEFDEF_PRINT + 1,
        64,
        LEFDEF_WIDE - 1,
        LEFDEF_PRINT + 1 + LEFDEF_WIDE,
        LEFDEF_CHECK + LEFDEF_MASKS_DROP,
        LEFDEF_CHECK + LEFDEF_SOFT_DROP,
        LEFDEF_CHECK + LEFDEF_SOFT_HARD,
        LEFDEF_PRINT + LEFDEF_MASKS_DROP + LEFDEF_SOFT_DROP,
        LEFDEF_CHECK + LEFDEF_WIDE + LEFDEF_SOFT_DROP + LEFDEF_SOFT_HARD,
        LEFDEF_CHECK + LEFDEF_WIDE + LEFDEF_MASKS_DROP + LEFDEF_SOFT_DROP + LEFDEF_SOFT_HARD,
        LEFDEF_CHECK + 2 * LEFDEF_SOFT_HARD,
        LEFDEF_CHECK + 2 * LEFDEF_SOFT_HARD + LEFDEF_WIDE,
        UINT32_MAX,
    };
    struct answer none = {LEFDEF_USAGE, lefdef_text_of(NULL, 0)};
    for (size_t at = 0; at < sizeof numbers / sizeof numbers[0]; at++) {
        it.number = numbers[at];
        count(is_answered(it, memory, 100, none), "a number that asks nothing is answered", it.number);
    }
}

/* Each profile gives this answer: no text has a form that one of them reads in another way. */
static void try_profiles(struct question it, struct answer answer, struct lefdef_memory memory)
{
    static const uint32_t profiles[] = {
        0,
        LEFDEF_WIDE,
        LEFDEF_WIDE + LEFDEF_MASKS_DROP,
        LEFDEF_WIDE + LEFDEF_SOFT_DROP,
        LEFDEF_WIDE + LEFDEF_SOFT_HARD,
        LEFDEF_WIDE + LEFDEF_MASKS_DROP + LEFDEF_SOFT_DROP,
        LEFDEF_WIDE + LEFDEF_MASKS_DROP + LEFDEF_SOFT_HARD,
    };
    uint32_t command = it.number % LEFDEF_WIDE;
    for (size_t at = 0; at < sizeof profiles / sizeof profiles[0]; at++) {
        it.number = command + profiles[at];
        count(is_answered(it, memory, answer.text.length + 64, answer), "this profile gives another answer", it.number);
    }
}

/* lefdef_answer takes regions of any size and place. */
static void try_regions(struct question it, struct answer answer)
{
    size_t size = 20 * it.def.length + (1 << 16);
    struct watched region = watched(size);
    struct watched out = watched(answer.text.length);
    size_t length = 0;
    for (size_t skipped = 0; skipped <= LEFDEF_UNIT; skipped++) {
        uint32_t status = lefdef_answer(region.bytes + skipped, size - skipped, it.number, it.lefs, it.count, it.def, out.bytes, out.size,
                                        &length);
        count(status == answer.status && length == out.size && memcmp(out.bytes, answer.text.bytes, out.size) == 0 && is_kept_around(region),
              "a region at this place gives another answer", skipped);
        status = lefdef_answer(region.bytes + 1, skipped, it.number, it.lefs, it.count, it.def, NULL, 0, &length);
        count(status == LEFDEF_MEMORY && length == 7, "a region of this size is enough", skipped);
    }
    free(out.block);
    free(region.block);
}

int main(int words, char **word)
{
    if (words < 6) {
        fprintf(stderr, "usage: lent ANSWER STATUS NUMBER DEF LEF...\n");
        return 64;
    }
    size_t lefs = (size_t)words - 5;
    struct lefdef_text *texts = memory_of(lefs * sizeof *texts);
    for (size_t at = 0; at < lefs; at++) {
        texts[at] = file(word[at + 5]);
    }
    struct answer answer = {(uint32_t)strtoul(word[2], NULL, 10), file(word[1])};
    struct question question = {(uint32_t)strtoul(word[3], NULL, 10), texts, lefs, file(word[4])};
    size_t size = 20 * question.def.length + (1 << 16);
    struct lefdef_memory memory = lefdef_lend(memory_of(size), size);
    try_sizes(question, answer);
    try_buffers(question, answer, memory);
    try_numbers(question, memory);
    try_profiles(question, answer, memory);
    try_regions(question, answer);
    printf("%d passed, %d failed\n", passed, failed);
    return failed > 0 || passed == 0;
}
