/* How deep the calls go: each runs in a thread whose stack was filled with a pattern before, on what nests deepest. Prints bytes of stack, and
 * fails if a call needs more than PG_STACK_BYTES. The thread's own needs are not counted. */
#include <pthread.h>
#include <stdio.h>
#include <stdlib.h>
#include <string.h>

#include "postgarlic.h"

#define STACK (4u << 20)
#define PATTERN 0xA5

static pg_tables tables;
static char text[PG_TEXT_BYTES];
static size_t length;
static uint8_t out[PG_TEXT_BYTES];
static uint32_t ids[PG_ID_CELLS * 1024];
static pg_answer answer;
static uint8_t *entered;

typedef void call(void);

static void read_film(void) { answer = pg_read(&tables, text, length); }
static void read_cue(void) { answer = pg_read_cue(&tables, text, length); }
static void check(void) { answer = pg_check(&tables); }
static void write_film(void) { answer = pg_write_track(&tables, out, sizeof out); }
static void write_cue(void) { answer = pg_write_cue(&tables, 0, out, sizeof out); }
static void say_cue(void) { answer = pg_cue_text(&tables, 0, (char *)out, sizeof out); }
static void resolve_value(void) { answer = pg_resolve_value(&tables, "s0", 2, ids, PG_COUNT(ids)).answer; }
static void resolve_cue(void) { answer = pg_resolve_cue(&tables, 0, ids, PG_COUNT(ids)).answer; }

static void *enter(void *job)
{
    uint8_t here;
    entered = &here;
    (*(call **)job)();
    return NULL;
}

/* The bytes of stack below the thread's own that a call touched. */
static size_t depth(call *job)
{
    pthread_t thread;
    pthread_attr_t attr;
    void *stack;
    if (posix_memalign(&stack, 4096, STACK)) {
        exit(2);
    }
    memset(stack, PATTERN, STACK);
    if (pthread_attr_init(&attr) || pthread_attr_setstack(&attr, stack, STACK) || pthread_create(&thread, &attr, enter, &job)
        || pthread_join(thread, NULL)) {
        exit(2);
    }
    const uint8_t *lowest = (const uint8_t *)stack;
    while (*lowest == PATTERN) {
        lowest++;
    }
    const size_t deep = (size_t)(entered - lowest);
    free(stack);
    return deep;
}

static size_t deepest;

static void measure(const char *what, call *job)
{
    const size_t deep = depth(job);
    if (answer.number != PG_TAKEN) {
        printf("%s: refused, number %d\n", what, answer.number);
        exit(1);
    }
    deepest = deep > deepest ? deep : deepest;
    printf("%-50s %8zu bytes\n", what, deep);
}

static void add(const char *piece, int times)
{
    while (times-- > 0) {
        length += (size_t)snprintf(text + length, sizeof text - length, "%s", piece);
    }
}

/* A film with so many divs around a p, and so many spans in it, each with six wrappers. */
static void nest(int divs, int spans)
{
    length = 0;
    add("<tt><body>", 1);
    add("<div>", divs);
    add("<p>", 1);
    add("<span tts:fontWeight='bold' tts:fontStyle='italic' tts:textDecoration='underline strike' tts:color='red' tts:fontSize='1'>", spans);
    add("a", 1);
}

/* Wrappers around a text, in the tables alone: a film has at most 366. */
static void wrap(uint32_t wrappers)
{
    memset(&tables, 0, sizeof tables);
    tables.head[3] = 1;
    tables.head[4] = wrappers + 1;
    tables.cues[8] = wrappers + 1;
    for (uint32_t row = 0; row <= wrappers; row++) {
        tables.segments[6 * row] = row < wrappers ? PG_FONT : PG_TEXT;
        tables.segments[6 * row + 1] = wrappers + 1 - row;
    }
}

/* Styles, each the parent of the one before. */
static void chain(int styles)
{
    length = 0;
    add("<tt><head><styling>", 1);
    for (int i = 0; i < styles; i++) {
        length += (size_t)snprintf(text + length, sizeof text - length, "<style id='s%d' style='s%d'/>", i, i + 1);
    }
    add("</styling></head><body><p style='s0'/></body></tt>", 1);
    answer = pg_read(&tables, text, length);
}

int main(void)
{
    nest(0, 61);
    measure("pg_read, 61 spans in a p", read_film);
    nest(30, 31);
    measure("pg_read, 30 divs and 31 spans", read_film);
    nest(61, 0);
    measure("pg_read, 61 divs around a p", read_film);
    length = 0;
    add("<p>", 1);
    add("<span tts:fontSize='1'>", 63);
    measure("pg_read_cue, 63 spans", read_cue);
    wrap(511);
    measure("pg_check, 512 segments one in the other", check);
    measure("pg_write_track, the same", write_film);
    measure("pg_write_cue, the same", write_cue);
    measure("pg_cue_text, the same", say_cue);
    chain(256);
    measure("pg_resolve_value, 256 styles in a chain", resolve_value);
    measure("pg_resolve_cue, the same", resolve_cue);
    printf("the deepest needs %s bytes than PG_STACK_BYTES, %d\n", deepest <= PG_STACK_BYTES ? "no more" : "MORE", PG_STACK_BYTES);
    return deepest > PG_STACK_BYTES;
}
