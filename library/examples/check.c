/* Checks a block, or asks another command of lefdef, by the library:
 *
 *     cc -O2 -I library library/examples/check.c liblefdef.a -o check
 *     ./check check examples/unfinished.def examples/standard.lef
 *
 * It answers as the program `lefdef` does, with its messages; of the options it takes --wide. The exit statuses are those of lefdef,
 * among them 4 where memory runs out, and 5 where a file cannot be read or the answer cannot be written.
 */
#include "lefdef.h"

#include <stdio.h>
#include <stdlib.h>
#include <string.h>

/* No more than this is lent. */
#define GREATEST ((size_t)8 << 30)

static const char *const commands[] = {
    [LEFDEF_CHECK] = "check",       [LEFDEF_PLACE_CHECK] = "place-check", [LEFDEF_MEASURE] = "measure",
    [LEFDEF_LEGALISE] = "legalise", [LEFDEF_ROUTE] = "route",             [LEFDEF_FLOW] = "flow",
    [LEFDEF_FINISH] = "finish",     [LEFDEF_PRINT] = "print",
};

enum { COMMANDS = sizeof commands / sizeof commands[0] };

static void stop(int status, const char *why, const char *what)
{
    fprintf(stderr, "%s%s\n", why, what);
    exit(status);
}

/* Returns memory from malloc, of which a size of 0 has a place too. */
static void *memory_of(size_t size)
{
    void *memory = malloc(size > 0 ? size : 1);
    if (memory == NULL) {
        stop(LEFDEF_MEMORY, "out of memory", "");
    }
    return memory;
}

static uint32_t number_of(const char *name)
{
    uint32_t number = 0;
    while (number < COMMANDS && strcmp(name, commands[number]) != 0) {
        number++;
    }
    return number;
}

/* Returns the bytes of a file. They are never freed. */
static struct lefdef_text file(const char *path)
{
    FILE *from = fopen(path, "rb");
    size_t room = 1 << 16, length = 0, got = 0;
    char *bytes = memory_of(room);
    if (from == NULL) {
        stop(5, "cannot read ", path);
    }
    while ((got = fread(bytes + length, 1, room - length, from)) > 0) {
        length += got;
        if (length == room) {
            room *= 2;
            bytes = realloc(bytes, room);
            if (bytes == NULL) {
                stop(LEFDEF_MEMORY, "out of memory", "");
            }
        }
    }
    if (ferror(from)) {
        stop(5, "cannot read ", path);
    }
    fclose(from);
    return lefdef_text_of(bytes, length);
}

/* A command, with its flags, its texts and the names of their files. */
struct question {
    uint32_t command;
    const struct lefdef_text *lef_names;
    struct lefdef_text def_name;
    const struct lefdef_text *lefs;
    size_t count;
    struct lefdef_text def;
};

/* Bytes, and how many of them there are. */
struct bytes {
    uint8_t *bytes;
    size_t length;
};

/* An answer, the message on it, and how the command ended. */
struct answer {
    uint32_t status;
    struct bytes text;
    struct bytes message;
};

/* Makes room for all bytes, and returns it. */
static size_t fitted(struct bytes *bytes)
{
    free(bytes->bytes);
    bytes->bytes = memory_of(bytes->length);
    return bytes->length;
}

/* Asks once, with this much memory. Where a text is longer than was guessed, its length is known then, and it is asked again. */
static struct answer ask(size_t size, struct question it)
{
    void *region = memory_of(size);
    struct answer answer = {0, {NULL, 2 * it.def.length + (1 << 12)}, {NULL, 1 << 12}};
    size_t room = 0, message_room = 0;
    while (answer.text.length > room || answer.message.length > message_room) {
        room = fitted(&answer.text);
        message_room = fitted(&answer.message);
        answer.status = lefdef_answer_explained(region, size, it.command, it.lef_names, it.def_name, it.lefs, it.count, it.def,
                                                answer.text.bytes, room, &answer.text.length, answer.message.bytes, message_room,
                                                &answer.message.length);
    }
    free(region);
    return answer;
}

/* Writes bytes, or stops the program. */
static void write_out(struct bytes bytes, FILE *to)
{
    if (fwrite(bytes.bytes, 1, bytes.length, to) != bytes.length || fflush(to) != 0) {
        stop(5, "cannot write", "");
    }
}

int main(int words, char **word)
{
    uint32_t flags = words > 1 && strcmp(word[1], "--wide") == 0 ? LEFDEF_WIDE : 0;
    words -= flags != 0;
    word += flags != 0;
    if (words < 4 || number_of(word[1]) == COMMANDS) {
        stop(LEFDEF_USAGE, "usage: check [--wide] COMMAND DEF LEF...", "");
    }
    size_t count = (size_t)words - 3;
    struct lefdef_text *names = memory_of(count * sizeof *names);
    struct lefdef_text *lefs = memory_of(count * sizeof *lefs);
    for (size_t at = 0; at < count; at++) {
        names[at] = lefdef_text_of(word[at + 3], strlen(word[at + 3]));
        lefs[at] = file(word[at + 3]);
    }
    struct lefdef_text def_name = lefdef_text_of(word[2], strlen(word[2]));
    struct question question = {number_of(word[1]) + flags, names, def_name, lefs, count, file(word[2])};

    size_t length = question.def.length;
    for (size_t at = 0; at < count; at++) {
        length += lefs[at].length;
    }
    size_t size = 20 * length + (1 << 20);
    struct answer answer = ask(size, question);
    while (answer.status == LEFDEF_MEMORY && size <= GREATEST / 2) {
        size *= 2;
        free(answer.text.bytes);
        free(answer.message.bytes);
        answer = ask(size, question);
    }
    write_out(answer.text, stdout);
    write_out(answer.message, stderr);
    return (int)answer.status;
}
