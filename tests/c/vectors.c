/* Joins through the C calls, told by a text on standard input (tests/joins/README.md): a case is a line of the output.
 *     cc -I include tests/c/vectors*.c tests/c/lent.c -L target/staticlib -llafkuno -llafkuno_why -o vectors
 *     ./vectors <tests/joins/vectors.txt | diff - tests/joins/vectors.out
 * Every slice is lent at its own size between guards, which are looked at after each call, as are the slices that a call may only read.
 * With --bare there are no guards, and valgrind sees every step outside. */
#include "vectors.h"
#include <stdio.h>
#include <stdlib.h>
#include <string.h>

struct text {
    char *at, *end;
};

/* ---- the text */

static struct text whole_input(void) {
    size_t size = 0, room = 1 << 16;
    char *all = NULL;
    for (;;) {
        all = realloc(all, room);
        if (!all) exit(2);
        size_t n = fread(all + size, 1, room - size, stdin);
        if (n == 0) return (struct text){all, all + size};
        size += n;
        if (size == room) room *= 2;
    }
}

static int is_digit(char c) {
    return '0' <= c && c <= '9';
}

static uint64_t number(struct text *t) {
    uint64_t value = 0;
    while (t->at < t->end && !is_digit(*t->at)) t->at++;
    while (t->at < t->end && is_digit(*t->at)) value = 10 * value + (uint64_t)(*t->at++ - '0');
    return value;
}

/* The rest of the line, behind a blank. */
static struct text rest(struct text *t) {
    struct text line = {t->at + 1, t->at + 1};
    while (line.end < t->end && *line.end != '\n') line.end++;
    t->at = line.end;
    return line;
}

/* ---- tables, state and room */

/* A count and so many numbers of w bytes, behind the first `from` bytes of a slice. */
static void fill(struct join *j, struct text *t, int k, size_t w, size_t from) {
    size_t n = (size_t)number(t);
    slice_resize(&j->lent[k], from + w * n);
    for (size_t i = 0; i < n; i++) {
        uint64_t v = number(t);
        memcpy(j->lent[k].start + from + w * i, &v, w); /* the machine is little-endian */
    }
}

/* A count and a number: so many that are it. */
static void repeat(struct join *j, struct text *t, int k) {
    size_t n = (size_t)number(t);
    uint64_t v = number(t);
    slice_resize(&j->lent[k], 8 * n);
    for (size_t i = 0; i < n; i++) memcpy(j->lent[k].start + 8 * i, &v, 8);
}

static void formats(struct join *j, struct text *t) {
    struct text line = rest(t);
    slice_resize(&j->lent[FORMATS], (size_t)(line.end - line.at));
    memcpy(j->lent[FORMATS].start, line.at, j->lent[FORMATS].size);
}

static void fresh_room(struct join *j, struct text *t) {
    slice_resize(&j->lent[ROOM], (size_t)number(t));
    memset(j->lent[ROOM].start, 238, j->lent[ROOM].size);
}

/* ---- commands */

static void name(struct text *t) {
    struct text line = rest(t);
    printf("%.*s:", (int)(line.end - line.at), line.at);
}

static void copy(struct join *j, struct text *t) {
    uint64_t source = number(t), start = number(t), end = number(t);
    copy_rows(j, (uint32_t)source, start, end);
}

static void finish(struct join *j, struct text *t) {
    uint64_t more = number(t), beyond = number(t);
    finish_join(j, more, beyond);
}

static void step(struct join *j, struct text *t) {
    char letter = *t->at++;
    switch (letter) {
    case ' ': case '\n': break;
    case 'C': name(t); break;
    case '.': putchar('\n'); break;
    case 'S': fill(j, t, SOURCES, 4, 0); break;
    case 'A': fill(j, t, PARTS, 8, 0); break;
    case 'Y': fill(j, t, SCHEMA, 4, 0); break;
    case 'P': fill(j, t, PLACES, 8, 0); break;
    case 'D': fill(j, t, BUFFERS, 8, 0); break;
    case 'L': fill(j, t, LENGTHS, 8, 0); break;
    case 'F': formats(j, t); break;
    case 'T': slice_resize(&j->lent[BODY], 0); break;
    case 'B': fill(j, t, BODY, 1, j->lent[BODY].size); break;
    case 'Q': repeat(j, t, PLAN); break;
    case 'K': repeat(j, t, COUNTERS); break;
    case 'R': fresh_room(j, t); break;
    case 'H': slice_resize(&j->lent[ROOM], (size_t)number(t)); break;
    case 'M': ask_parts(j, number(t)); break;
    case 'O': open_join(j, number(t)); break;
    case 'E': copy(j, t); break;
    case 'N': add_nulls(j, number(t)); break;
    case 'W': finish(j, t); break;
    case 'V': show_rows(j); break;
    case 'X': lend_again(j); break;
    default:
        fprintf(stderr, "no command: %c\n", letter);
        exit(2);
    }
}

int main(int count, char **arguments) {
    lent_bare = count > 1 && strcmp(arguments[1], "--bare") == 0;
    struct join j = {0};
    struct text all = whole_input(), t = all;
    for (int k = 0; k < SLICES; k++) slice_resize(&j.lent[k], 0);
    while (t.at < t.end) step(&j, &t);
    for (int k = 0; k < SLICES; k++) slice_free(&j.lent[k]);
    free(all.at);
    return fflush(stdout) != 0;
}
