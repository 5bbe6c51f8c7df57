/* Asks a command of the library in four threads at a time, ten times in each, with memory and a buffer of the thread's own.
 *
 *     threads ANSWER STATUS NUMBER DEF LEF...
 *
 * The words are those of lent. The exit status is 0 only if each answer is the expected one.
 */
#include "lefdef.h"

#include <pthread.h>
#include <stdio.h>
#include <stdlib.h>
#include <string.h>

enum { THREADS = 4, TURNS = 10 };

static struct lefdef_text answer;
static uint32_t status;
static uint32_t number;
static struct lefdef_text def;
static struct lefdef_text *lefs;
static size_t count;

static void *memory_of(size_t size)
{
    void *memory = malloc(size);
    if (memory == NULL) {
        fprintf(stderr, "out of memory\n");
        exit(2);
    }
    return memory;
}

static struct lefdef_text file(const char *path)
{
    FILE *from = fopen(path, "rb");
    long length = from != NULL && fseek(from, 0, SEEK_END) == 0 ? ftell(from) : -1;
    uint8_t *bytes = memory_of(length > 0 ? (size_t)length : 1);
    if (length < 0 || fseek(from, 0, SEEK_SET) != 0 || fread(bytes, 1, (size_t)length, from) != (size_t)length) {
        fprintf(stderr, "cannot read %s\n", path);
        exit(2);
    }
    fclose(from);
    return lefdef_text_of(bytes, (size_t)length);
}

/* Asks in turn, and returns `answer` if all answers are right, and else null. */
static void *ask(void *unused)
{
    size_t size = 20 * def.length + (1 << 16);
    void *region = memory_of(size);
    uint8_t *out = memory_of(answer.length);
    int right = 0;
    (void)unused;
    for (int turn = 0; turn < TURNS; turn++) {
        size_t length = 0;
        memset(out, 0, answer.length);
        right += lefdef_answer(region, size, number, lefs, count, def, out, answer.length, &length) == status &&
                 length == answer.length && memcmp(out, answer.bytes, length) == 0;
    }
    free(out);
    free(region);
    return right == TURNS ? &answer : NULL;
}

int main(int words, char **word)
{
    pthread_t threads[THREADS];
    int right = 0;
    if (words < 6) {
        fprintf(stderr, "usage: threads ANSWER STATUS NUMBER DEF LEF...\n");
        return 64;
    }
    answer = file(word[1]);
    status = (uint32_t)strtoul(word[2], NULL, 10);
    number = (uint32_t)strtoul(word[3], NULL, 10);
    def = file(word[4]);
    count = (size_t)words - 5;
    lefs = memory_of(count * sizeof *lefs);
    for (size_t at = 0; at < count; at++) {
        lefs[at] = file(word[at + 5]);
    }
    for (int at = 0; at < THREADS; at++) {
        if (pthread_create(&threads[at], NULL, ask, NULL) != 0) {
            fprintf(stderr, "there is no thread\n");
            return 2;
        }
    }
    for (int at = 0; at < THREADS; at++) {
        void *ended = NULL;
        pthread_join(threads[at], &ended);
        right += ended != NULL;
    }
    printf("%d of %d threads got the answer\n", right, THREADS);
    return right != THREADS;
}
