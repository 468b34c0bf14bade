/* One van, one stop, two kilometres. The box in the van sends its first batch from power-up on, and the trip begins in the middle of it:
 * the depot gets a slice. The trip is ordered from that slice, nulls for the stop, and from the next batch, and joined. Then the same
 * orders are given once more with the slice's offset left out, as a cut would that forgets it. It prints examples/sliced.txt.
 *     cc -I include examples/sliced.c -L target/staticlib -llafkuno -o sliced && ./sliced */
#include <lafkuno.h>
#include <stdio.h>

enum { FIRST = 10, SECOND = 5, ROWS = 11 };

#define COUNT(table) sizeof(table) / sizeof *(table)
#define LENT(table) table, COUNT(table)

/* A slot a minute: the first batch, and the second behind it. */
static const uint8_t metres[FIRST + SECOND] = {0, 0, 0, 0, 0, 150, 200, 220, 220, 210, 250, 250, 255, 245, 0};
static const uint8_t fuel[FIRST + SECOND] = {95, 90, 85, 80, 75, 48, 50, 47, 46, 45, 52, 51, 50, 47, 20};

/* Two sources of a node each, of unsigned bytes (docs/FORMAT.md); parts for the validity and the values of 11 rows. */
static const uint8_t formats[1] = {'C'};
static const uint32_t sources[4] = {0, 1, 1, 1}, schema[10] = {0, 1, 2, 0, 0, 0, 1, 2, 0, 0};
static const uint64_t places[18] = {0, 0, 0, 0, FIRST, 0, 0, 0, 0, 0, 0, 0, FIRST, SECOND, 0, 0, 0, 0}, parts[4] = {0, 2, 2, ROWS}, no_buffers[1];

static void show_slots(const char *what, const uint8_t *slots, int n) {
    printf("   %s", what);
    for (int i = 0; i < n; i++) printf("%4d", slots[i]);
    putchar('\n');
}

static void answered(const char *call, uint8_t ground) {
    printf(" %s %d", call, ground);
}

/* Prints the rows of the finished array, whose body is the room; answers their sum. */
static uint64_t show_rows(const uint64_t lengths[2], const uint64_t column[9], const uint8_t *room, size_t size) {
    uint64_t tree[LAFKUNO_TREE], answer[LAFKUNO_ANSWER], sum = 0;
    uint8_t ground = lafkuno_open_column(LENT(formats), schema, 5, lengths, 2, column, 9, no_buffers, 0, room, size, 0, 1, LENT(tree));
    if (ground != LAFKUNO_DONE) answered("read", ground);
    printf("\n   rows  [");
    for (uint64_t row = 0; row < lengths[0]; row++) {
        if (row > 0) putchar(' ');
        switch (lafkuno_read_row(LENT(tree), lengths, 2, column, 9, no_buffers, 0, room, size, 0, row, LENT(answer))) {
        case LAFKUNO_NULL: printf("null"); break;
        case LAFKUNO_UNSIGNED: printf("%d", (int)answer[0]); sum += answer[0]; break;
        default: printf("another row");
        }
    }
    putchar(']');
    return sum;
}

#define SOURCES LENT(sources), LENT(lengths), LENT(places), body, FIRST + SECOND

/* What the trip books of a column: rows 1 to 5 of the first batch, of which 6 are lent from `offset` on, two minutes of nulls, and rows 0
 * to 3 of the second. Each call prints its answer: 0 is accepted. */
static uint64_t booked(const char *what, const uint8_t *body, uint64_t offset) {
    const uint64_t lengths[4] = {6, offset, SECOND, 0};
    uint64_t plan[LAFKUNO_PLAN], counters[LAFKUNO_COUNTERS], new_lengths[2], new_nulls[1], new_places[9], new_buffers[1];
    uint8_t room[2 + ROWS];
    printf("%s\n   calls", what);
    answered("open", lafkuno_open(LENT(sources), LENT(formats), LENT(schema), LENT(lengths), LENT(places), no_buffers, 0, body, FIRST + SECOND, 1, 0,
                                  LENT(parts), LENT(plan), LENT(counters), LENT(room)));
    answered("copy", lafkuno_copy(LENT(plan), LENT(parts), SOURCES, LENT(counters), LENT(room), 0, 1, 6));
    answered("nulls", lafkuno_nulls(LENT(plan), LENT(parts), LENT(counters), LENT(room), 2));
    answered("copy", lafkuno_copy(LENT(plan), LENT(parts), SOURCES, LENT(counters), LENT(room), 1, 0, 4));
    answered("finish", lafkuno_finish(LENT(plan), LENT(parts), LENT(sources), LENT(lengths), LENT(places), no_buffers, 0, body, FIRST + SECOND,
                                      LENT(counters), LENT(room), 0, LENT(new_lengths), LENT(new_nulls), LENT(new_places), new_buffers, 0));
    uint64_t sum = show_rows(new_lengths, new_places, LENT(room));
    printf("\n   sum   %d\n", (int)sum);
    return sum;
}

static void show_booking(uint64_t way, uint64_t used) {
    printf(" => %d ml on %d m\n", (int)used, (int)way);
}

int main(void) {
    puts("The first batch as its buffers have it, a slot a minute from power-up on, in the yard up to slot 4:");
    show_slots("metres   ", metres, FIRST);
    show_slots("fuel, ml ", fuel, FIRST);
    puts("The second batch:");
    show_slots("metres   ", metres + FIRST, SECOND);
    show_slots("fuel, ml ", fuel + FIRST, SECOND);
    puts("The depot gets the first batch as a slice: offset 4, length 6.");
    puts("Orders: rows 1 to 5 of the slice, 2 nulls for the stop, rows 0 to 3 of the second batch.\n");
    uint64_t way = booked("Joined metres", metres, 4), used = booked("Joined fuel", fuel, 4);
    show_booking(way, used);
    puts("\nThe same orders, had the slice's offset been forgotten:");
    way = booked("Metres from power-up", metres, 0), used = booked("Fuel from power-up", fuel, 0);
    show_booking(way, used);
    puts("    The idling in the yard would have been booked on the trip.");
    return 0;
}
