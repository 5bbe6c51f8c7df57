/* lefdef as a library: its commands on texts in memory. It is for C99, C++ and what can call C, on Linux on x86-64.
 *
 * A call takes the texts of a DEF and of its LEFs and answers with the bytes that the program `lefdef` writes for the same files, and
 * with its exit status. All memory that it needs is lent to it: it opens no file, calls no malloc, keeps nothing between calls and
 * changes nothing but what it is lent. `library/examples/check.c` is a program to copy from.
 *
 * Link with liblefdef.a. It needs memcpy, memmove and memset, of the C library, and __udivti3, which comes with the C compiler.
 */
#ifndef LEFDEF_H
#define LEFDEF_H

#include <stddef.h>
#include <stdint.h>

#ifdef __cplusplus
extern "C" {
#endif

/* The commands of the program, by their numbers. */
enum lefdef_command {
    LEFDEF_CHECK = 0,
    LEFDEF_PLACE_CHECK = 1,
    LEFDEF_MEASURE = 2,
    LEFDEF_LEGALISE = 3,
    LEFDEF_ROUTE = 4,
    LEFDEF_FLOW = 5,
    LEFDEF_FINISH = 6,
    LEFDEF_PRINT = 7
};

/* The options of the program, as flags that are added to the number of a command. They say in which profile the texts are read: in the
 * narrow one without a flag, and in the wide one with LEFDEF_WIDE. Each other flag goes only with LEFDEF_WIDE, and of the last two only
 * one. So far both profiles read the same texts, and no flag changes an answer. */
#define LEFDEF_WIDE 256u       /* --wide */
#define LEFDEF_MASKS_DROP 512u /* --masks drop: shapes are read as if they had no masks */
#define LEFDEF_SOFT_DROP 1024u /* --soft drop: a placement blockage that is SOFT or PARTIAL is read as if it were not there */
#define LEFDEF_SOFT_HARD 2048u /* --soft hard: such a blockage is read as any other */

/* How a call ended: the program's exit statuses. */
enum lefdef_status {
    LEFDEF_SUCCESS = 0,    /* the design is legal, its wirelength was printed, or a design was printed */
    LEFDEF_VIOLATIONS = 1, /* violations were listed */
    LEFDEF_REFUSED = 2,    /* a text was refused, a length is no whole number of the DEF's units, or there are too many shapes */
    LEFDEF_UNSOLVED = 3,   /* the design could not be legalised, routed or finished */
    LEFDEF_MEMORY = 4,     /* the memory was not enough: the answer is the line MEMORY, and more memory may give another */
    LEFDEF_USAGE = 64      /* no command has this number, or its flags do not go together: there is no answer */
};

/* Memory is lent in units of this many bytes. */
#define LEFDEF_UNIT 16

/* Bytes of a text. They are only read. */
struct lefdef_text {
    const uint8_t *bytes; /* not null, even where there are none */
    size_t length;
};

/* Memory to work in. */
struct lefdef_memory {
    uint8_t *bytes; /* at a multiple of LEFDEF_UNIT */
    size_t size;    /* a multiple of LEFDEF_UNIT, and at least one */
};

/* Answers a command to the texts of the LEFs, in order, and of the DEF, and returns how it ended (enum lefdef_status). `command` is the
 * number of the command, and may have flags added to it, as LEFDEF_CHECK + LEFDEF_WIDE.
 *
 * `*length` becomes the length of the answer in bytes. As much of its front as fits is in `out`, from the first byte on; what `out` has
 * beyond the answer stays as it was. An answer that is longer than `out` is cut, and only `*length` tells it: then `out` has to be
 * larger, and the command has to be asked again.
 *
 * lefdef_answer, below, keeps most of these rules for its caller (and lefdef_answer_explained those of lefdef_run_explained). Nothing checks them:
 *
 *  - `memory` is as its struct says, and nobody else reads or writes these bytes during the call.
 *  - No pointer is null, not even to none: `lefs` points to `lef_count` texts, `def` to `def_length` bytes, `out` to `out_size` bytes and
 *    `length` to a size_t.
 *  - `memory`, `out` and `*length` overlap neither each other nor a text. Texts may overlap.
 *  - One call at a time uses a region of memory, an `out` or a `length`. Calls that share nothing but texts may run at the same time.
 *
 * How much memory is enough depends on the design, and nothing tells it before. Checks were measured to take 10 to 55 times the lengths of
 * all texts, or 400 KiB for small blocks with a library of 33 cells, and routing 2 MiB for one of 84 nets. So begin with 20 times these
 * lengths and 1 MiB, and where the answer is MEMORY ask again with twice as much. 64 KiB of stack were enough for the blocks that were tried.
 *
 * When the call has ended, the memory is its caller's again, and no part of it is reached later. This is so by how the library is
 * written, which has nothing that outlives a call. It is not in its contract, which takes the memory for good.
 */
uint32_t lefdef_run(struct lefdef_memory memory, uint32_t command, const struct lefdef_text *lefs, size_t lef_count, const uint8_t *def,
                    size_t def_length, uint8_t *out, size_t out_size, size_t *length);

/* Answers as lefdef_run does, and gives with the answer the message that the program writes on standard error for files of these names:
 * where a text is refused and why, or what can be done. The message is empty where the status is not LEFDEF_REFUSED or LEFDEF_UNSOLVED,
 * and where the memory was not enough for it. `lef_names` are the names of the LEFs' files, one for each LEF, and `def_name` that of the
 * DEF's; bytes that are not UTF-8 come back as they are. As much of the message's front as fits is in `message`, and `*message_length`
 * becomes its length in bytes. All else is as for lefdef_run; `message` and `*message_length` overlap nothing else that is written. */
uint32_t lefdef_run_explained(struct lefdef_memory memory, uint32_t command, const struct lefdef_text *lef_names, size_t lef_name_count,
                              const uint8_t *def_name, size_t def_name_length, const struct lefdef_text *lefs, size_t lef_count,
                              const uint8_t *def, size_t def_length, uint8_t *out, size_t out_size, size_t *length, uint8_t *message,
                              size_t message_size, size_t *message_length);

/* A text of these bytes. The pointer may be null where there are none. */
static inline struct lefdef_text lefdef_text_of(const void *bytes, size_t length)
{
    struct lefdef_text text;
    text.bytes = length > 0 ? (const uint8_t *)bytes : (const uint8_t *)"";
    text.length = length;
    return text;
}

/* The units of a region, which may lie anywhere. Where it has none, `size` is 0, and lefdef_run may not be called with it. */
static inline struct lefdef_memory lefdef_lend(void *bytes, size_t size)
{
    struct lefdef_memory memory;
    size_t skipped = (size_t)(-(uintptr_t)bytes % LEFDEF_UNIT);
    size_t usable = size > skipped ? size - skipped : 0;
    memory.size = usable - usable % LEFDEF_UNIT;
    memory.bytes = memory.size > 0 ? (uint8_t *)bytes + skipped : (uint8_t *)bytes;
    return memory;
}

/* lefdef_run on a region of any size at any place, with a DEF, LEFs and an `out` that may be null where there are no bytes of them, or
 * no LEF. (The texts of the LEFs are as lefdef_text_of makes them.) A region with no unit is as good as one unit: the answer is that of
 * a call on LEFDEF_UNIT bytes. */
static inline uint32_t lefdef_answer(void *region, size_t size, uint32_t command, const struct lefdef_text *lefs, size_t lef_count,
                                     struct lefdef_text def, void *out, size_t out_size, size_t *length)
{
    uint8_t unit[2 * LEFDEF_UNIT - 1];
    uint8_t nowhere = 0;
    struct lefdef_text none = lefdef_text_of(NULL, 0);
    struct lefdef_memory memory = lefdef_lend(region, size);
    if (memory.size == 0) {
        memory = lefdef_lend(unit, sizeof unit);
    }
    def = lefdef_text_of(def.bytes, def.length);
    return lefdef_run(memory, command, lef_count > 0 ? lefs : &none, lef_count, def.bytes, def.length,
                      out_size > 0 ? (uint8_t *)out : &nowhere, out_size, length);
}

/* lefdef_run_explained in the same way: with as many names of LEFs as there are LEFs, and a `message` that may be null where it has no
 * bytes. */
static inline uint32_t lefdef_answer_explained(void *region, size_t size, uint32_t command, const struct lefdef_text *lef_names,
                                               struct lefdef_text def_name, const struct lefdef_text *lefs, size_t lef_count,
                                               struct lefdef_text def, void *out, size_t out_size, size_t *length, void *message,
                                               size_t message_size, size_t *message_length)
{
    uint8_t unit[2 * LEFDEF_UNIT - 1];
    uint8_t nowhere[2] = {0, 0};
    struct lefdef_text none = lefdef_text_of(NULL, 0);
    struct lefdef_memory memory = lefdef_lend(region, size);
    if (memory.size == 0) {
        memory = lefdef_lend(unit, sizeof unit);
    }
    def = lefdef_text_of(def.bytes, def.length);
    def_name = lefdef_text_of(def_name.bytes, def_name.length);
    return lefdef_run_explained(memory, command, lef_count > 0 ? lef_names : &none, lef_count, def_name.bytes, def_name.length,
                                lef_count > 0 ? lefs : &none, lef_count, def.bytes, def.length,
                                out_size > 0 ? (uint8_t *)out : &nowhere[0], out_size, length,
                                message_size > 0 ? (uint8_t *)message : &nowhere[1], message_size, message_length);
}

#ifdef __cplusplus
}
#endif

#endif
