/* The calls of lafkuno.h that read or write one column, over structs: runs and back, reclaiming, lists as list-views and back, other widths, and
 * what is computed beside a join. */
#include <lafkuno_tables.h>
#include <stdio.h>
#include <stdlib.h>
#include <string.h>

enum { MOST = 4 }; /* nodes of a result */

static int failed;

static void expect(const char *what, uint64_t got, uint64_t wanted) {
    if (got == wanted) return;
    fprintf(stderr, "%s: %llu, not %llu\n", what, (unsigned long long)got, (unsigned long long)wanted);
    failed = 1;
}

/* A result with room for its tables. */
struct result {
    struct lafkuno_state state;
    uint64_t lengths[2 * MOST], nulls[MOST];
    lafkuno_position places[9 * MOST], buffers[1];
};

static struct result *begin(void) {
    struct result *r = calloc(1, sizeof *r);
    if (!r) exit(2);
    return r;
}

/* The room that a plan asks for. */
static void lend(struct result *r) {
    r->state.room_len = (size_t)lafkuno_state_parts(&r->state);
    r->state.room = malloc(r->state.room_len + 1);
    if (!r->state.room) exit(2);
}

/* The tables of a result of n nodes. */
static struct lafkuno_finished finish(struct result *r, const struct lafkuno_tables *t, size_t n) {
    struct lafkuno_finished f = {r->lengths, 2 * n, r->nulls, n, r->places, 9 * n, r->buffers, 0};
    expect("finish", lafkuno_state_finish(&r->state, t, 0, &f), LAFKUNO_DONE);
    return f;
}

/* The entry of a node's buffer in the room. */
static int64_t entry(const struct result *r, size_t node, int buffer, size_t width, uint64_t k) {
    int64_t number = 0;
    memcpy(&number, r->state.room + r->places[9 * node + 1 + 2 * buffer] + k * width, width);
    return number;
}

static void end(struct result *r) {
    free(r->state.room);
    free(r);
}

/* Rows 2 to 6 of six numbers behind one that is cut off: 5 5 7 7 7. */
static void runs(void) {
    const int32_t rows[7] = {1, 4, 5, 5, 7, 7, 7};
    const uint32_t sources[2] = {0, 1}, schema[20] = {0, 1, 0, 0, 0, 1, 2, 0, 2, 0, 3, 1, 0, 0, 0, 0, 1, 0, 0, 0};
    const lafkuno_position places[9] = {0, 0, 0, 0, sizeof rows, 0, 0, 0, 0}, buffers[1] = {0};
    const uint64_t lengths[2] = {6, 1};
    const struct lafkuno_tables t = {sources, 2, (const uint8_t *)"i+rs", 4, schema, 20, lengths, 2, places, 9, buffers, 0, (const uint8_t *)rows, sizeof rows};
    struct result *r = begin();
    expect("another range", lafkuno_state_plan_encode(&r->state, &t, 0, 1, 1, 1, 7), LAFKUNO_NO_SUCH_ROWS);
    expect("another target", lafkuno_state_plan_encode(&r->state, &t, 0, 1, 0, 1, 6), LAFKUNO_UNKNOWN_TYPE);
    expect("plan of runs", lafkuno_state_plan_encode(&r->state, &t, 0, 1, 1, 1, 6), LAFKUNO_DONE);
    lend(r);
    expect("runs", lafkuno_state_encode(&r->state, &t, 0, 1, 1, 1, 6), LAFKUNO_DONE);
    finish(r, &t, 3);
    expect("rows", r->lengths[0], 5);
    expect("run ends", r->lengths[2] == 2 && entry(r, 1, 1, 2, 0) == 2 && entry(r, 1, 1, 2, 1) == 5, 1);
    expect("values", r->lengths[4] == 2 && entry(r, 2, 1, 4, 0) == 5 && entry(r, 2, 1, 4, 1) == 7, 1);

    /* back: rows 1 to 3, over the room as the body */
    const uint32_t whole[2] = {0, 3};
    struct lafkuno_tables u = {whole, 2, t.formats, 4, schema + 5, 15, r->lengths, 6, r->places, 27, buffers, 0, r->state.room, r->state.room_len};
    struct result *b = begin();
    uint64_t run[LAFKUNO_RUN], tree[LAFKUNO_TREE], mean[LAFKUNO_MEAN];
    expect("run of a row", lafkuno_tables_run_at(&u, 0, 3, 1, run) || run[0] != 0 || run[1] != 1, 0);
    expect("open", lafkuno_tables_open_column(&u, 0, 3, tree), LAFKUNO_DONE);
    expect("run of the next", lafkuno_tables_read_run(&u, tree, 0, 2, run) || run[0] != 1 || run[1] != 3, 0);
    expect("mean", lafkuno_tables_mean(&u, 0, 3, 0, 5, mean), LAFKUNO_DONE);
    expect("31 over 5", mean[0] == 5 && mean[1] == 31 && mean[3] == 31 && mean[4] == 5, 1);
    expect("plan of rows", lafkuno_state_plan_expand(&b->state, &u, 0, 3, 2, 1, 4), LAFKUNO_DONE);
    lend(b);
    expect("rows", lafkuno_state_expand(&b->state, &u, 0, 3, 2, 1, 4), LAFKUNO_DONE);
    finish(b, &u, 1);
    expect("rows as before", b->lengths[0] == 3 && entry(b, 0, 1, 4, 0) == 5 && entry(b, 0, 1, 4, 1) == 7 && entry(b, 0, 1, 4, 2) == 7, 1);
    b->state.room_len = 1;
    expect("no room", lafkuno_state_expand(&b->state, &u, 0, 3, 2, 1, 4), LAFKUNO_BAD_PARTS);
    end(b);
    end(r);
}

/* Keys 3, 1, 3 into four numbers. */
static void reclaiming(void) {
    const uint8_t body[7] = {10, 11, 12, 13, 3, 1, 3};
    const uint32_t sources[2] = {0, 2}, schema[10] = {0, 1, 0, 0, 1, 0, 1, 0, 0, 0};
    const lafkuno_position places[18] = {0, 0, 0, 4, 3, 0, 0, 0, 0, 0, 0, 0, 0, 4, 0, 0, 0, 0}, buffers[1] = {0};
    const uint64_t lengths[4] = {3, 0, 4, 0};
    const struct lafkuno_tables t = {sources, 2, (const uint8_t *)"C", 1, schema, 10, lengths, 4, places, 18, buffers, 0, body, sizeof body};
    struct result *r = begin();
    expect("no dictionary", lafkuno_state_plan_reclaim(&r->state, &t, 1, 1), LAFKUNO_UNKNOWN_TYPE);
    expect("plan of reclaiming", lafkuno_state_plan_reclaim(&r->state, &t, 0, 2), LAFKUNO_DONE);
    lend(r);
    expect("reclaiming", lafkuno_state_reclaim(&r->state, &t, 0, 2), LAFKUNO_DONE);
    finish(r, &t, 2);
    expect("keys", entry(r, 0, 1, 1, 0) == 1 && entry(r, 0, 1, 1, 1) == 0 && entry(r, 0, 1, 1, 2) == 1, 1);
    expect("entries", r->lengths[2] == 2 && entry(r, 1, 1, 1, 0) == 11 && entry(r, 1, 1, 1, 1) == 13, 1);
    end(r);
}

/* Two trips, of one stop and of two; node 2 on is the type of the list-view, node 4 on that of large lists. */
static void lists(void) {
    const struct { int32_t offsets[3]; uint8_t stops[4]; } body = {{0, 1, 3}, {7, 8, 9, 0}};
    const uint32_t sources[2] = {0, 2};
    const uint32_t schema[30] = {0, 2, 0, 1, 0, 7, 1, 0, 0, 0, 2, 3, 0, 1, 0, 7, 1, 0, 0, 0, 5, 2, 0, 1, 0, 7, 1, 0, 0, 0};
    const lafkuno_position places[18] = {0, 0, 0, 0, 12, 0, 0, 0, 0, 0, 0, 0, 12, 3, 0, 0, 0, 0}, buffers[1] = {0};
    const uint64_t lengths[4] = {2, 0, 3, 0};
    const struct lafkuno_tables t = {sources, 2, (const uint8_t *)"+l+vl+LC", 8, schema, 30, lengths, 4, places, 18, buffers, 0, (const uint8_t *)&body, 15};
    struct result *r = begin(), *wide = begin(), *back = begin();
    expect("plan of list-views", lafkuno_state_plan_list_view(&r->state, &t, 0, 2, 2, 2), LAFKUNO_DONE);
    lend(r);
    expect("list-views", lafkuno_state_list_view(&r->state, &t, 0, 2, 2, 2), LAFKUNO_DONE);
    struct lafkuno_finished f = finish(r, &t, 1);
    f.lengths_len = 4;
    f.nulls_len = 2;
    f.places_len = 18;
    expect("their child", lafkuno_tables_list_view_child(&t, 0, 2, &f), LAFKUNO_DONE);
    expect("the child's rows", r->lengths[2] == 3 && r->places[9 + 3] == 12, 1);
    expect("sizes", entry(r, 0, 2, 4, 0) == 1 && entry(r, 0, 2, 4, 1) == 2, 1);

    expect("plan of large lists", lafkuno_state_plan_convert(&wide->state, &t, 0, 2, 4, 2), LAFKUNO_DONE);
    lend(wide);
    expect("large lists", lafkuno_state_convert(&wide->state, &t, 0, 2, 4, 2), LAFKUNO_DONE);
    finish(wide, &t, 2);
    expect("offsets", entry(wide, 0, 1, 8, 1) == 1 && entry(wide, 0, 1, 8, 2) == 3 && entry(wide, 1, 1, 1, 2) == 9, 1);

    /* back, over a body that has the root's room behind the child */
    uint8_t *both = malloc(15 + r->state.room_len);
    if (!both) exit(2);
    memcpy(both, &body, 15);
    memcpy(both + 15, r->state.room, r->state.room_len);
    r->places[3] += 15;
    r->places[5] += 15;
    struct lafkuno_tables views = t;
    const uint32_t turned[20] = {2, 3, 0, 1, 0, 7, 1, 0, 0, 0, 0, 2, 0, 1, 0, 7, 1, 0, 0, 0};
    views.schema = turned;
    views.schema_len = 20;
    views.lengths = r->lengths;
    views.places = r->places;
    views.body = both;
    views.body_len = 15 + r->state.room_len;
    expect("plan of lists", lafkuno_state_plan_list(&back->state, &views, 0, 2, 2, 2), LAFKUNO_DONE);
    lend(back);
    expect("lists", lafkuno_state_list(&back->state, &views, 0, 2, 2, 2), LAFKUNO_DONE);
    finish(back, &views, 2);
    expect("offsets again", entry(back, 0, 1, 4, 2) == 3 && entry(back, 1, 1, 1, 0) == 7 && entry(back, 1, 1, 1, 2) == 9, 1);
    free(both);
    end(back);
    end(wide);
    end(r);
}

/* The box around three points; total over total of two columns of whole numbers, and two of their rows. */
static void beside(void) {
    const double points[6] = {55.5, 54.25, 56, -3, -3.5, -2};
    const uint8_t numbers[4] = {6, 9, 5, 5};
    const uint32_t sources[2] = {0, 1}, schema[10] = {0, 1, 0, 0, 0, 0, 1, 0, 0, 0};
    const lafkuno_position places[18] = {0, 0, 0, 0, 24, 0, 0, 0, 0, 0, 0, 0, 24, 24, 0, 0, 0, 0}, buffers[1] = {0};
    const lafkuno_position short_places[18] = {0, 0, 0, 0, 2, 0, 0, 0, 0, 0, 0, 0, 2, 2, 0, 0, 0, 0};
    const uint64_t lengths[4] = {3, 0, 3, 0}, short_lengths[4] = {2, 0, 2, 0};
    const struct lafkuno_tables t = {sources, 2, (const uint8_t *)"g", 1, schema, 10, lengths, 4, places, 18, buffers, 0, (const uint8_t *)points, sizeof points};
    const struct lafkuno_tables u = {sources, 2, (const uint8_t *)"C", 1, schema, 10, short_lengths, 4, short_places, 18, buffers, 0, numbers, 4};
    double frame[4];
    uint64_t ratio[LAFKUNO_RATIO], same[LAFKUNO_SAME];
    expect("frame", lafkuno_tables_frame(&t, 0, 1, 1, 1, 0, 2, frame), LAFKUNO_DONE);
    expect("its sides", frame[0] == 54.25 && frame[1] == 55.5 && frame[2] == -3.5 && frame[3] == -3, 1);
    expect("ratio", lafkuno_tables_ratio(&u, 0, 1, 1, 1, 0, 2, ratio), LAFKUNO_DONE);
    expect("3 over 2", ratio[0] == 2 && ratio[1] == 15 && ratio[2] == 10 && ratio[4] == 3 && ratio[5] == 2, 1);
    expect("same row", lafkuno_tables_same_row(&u, 1, 1, 1, 1, 0, 1, same), LAFKUNO_DONE);
    expect("5 and 5", same[0], 1);
    expect("other row", lafkuno_tables_same_row(&u, 0, 1, 1, 1, 0, 1, same), LAFKUNO_DONE);
    expect("6 and 5", same[0], 0);
    expect("no third row", lafkuno_tables_same_row(&t, 0, 1, 1, 1, 0, 3, same), LAFKUNO_NO_SUCH_ROWS);
    expect("numbers as points", lafkuno_tables_frame(&u, 0, 1, 1, 1, 0, 2, frame), LAFKUNO_UNKNOWN_TYPE);
}

int main(void) {
    runs();
    reclaiming();
    lists();
    beside();
    if (!failed) puts("the calls of one column over structs");
    return failed;
}
