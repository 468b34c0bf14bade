/* Trips out of the batches of two vans, by the structs of the Arrow C Data Interface.
 *     make && cc -I include examples/trips.c target/c/liblafkuno.a -o trips && ./trips */
#include <lafkuno_arrow.h>
#include <stdio.h>

static void keep_schema(struct ArrowSchema *schema) { schema->release = NULL; }
static void keep_array(struct ArrowArray *array) { array->release = NULL; }

int main(void) {
    /* what any Arrow implementation hands out: 8 rows and 3 rows, of which the first van's trip is rows 4 to 7 */
    static const int32_t first[8] = {310, 305, 300, 298, 95, 102, 12, 61}, second[3] = {80, 81, 82};
    const void *first_buffers[2] = {NULL, first}, *second_buffers[2] = {NULL, second};
    struct ArrowSchema type = {.format = "i", .name = "ml", .flags = ARROW_FLAG_NULLABLE, .release = keep_schema};
    struct ArrowArray a = {.length = 4, .offset = 4, .n_buffers = 2, .buffers = first_buffers, .release = keep_array};
    struct ArrowArray b = {.length = 3, .n_buffers = 2, .buffers = second_buffers, .release = keep_array};

    struct lafkuno_source vans[2] = {{&type, &a}, {&type, &b}};
    struct lafkuno_order orders[3] = {lafkuno_rows(0, 0, 3), lafkuno_gap(1), lafkuno_rows(1, 1, 3)};
    struct lafkuno_options options = {.keep_nulls = 1};
    struct lafkuno_error error;
    struct ArrowSchema schema;
    struct ArrowArray joined;
    if (lafkuno_join_arrays(vans, 2, orders, 3, &options, &schema, &joined, &error)) {
        puts(error.message);
        return 1;
    }
    printf("%s: %d rows, %d null\n", schema.name, (int)joined.length, (int)joined.null_count);
    const uint8_t *bits = joined.buffers[0];
    for (int64_t row = 0; row < joined.length; row++) {
        if (bits[row / 8] >> row % 8 & 1) printf("%d\n", ((const int32_t *)joined.buffers[1])[row]);
        else puts("null");
    }

    /* an order that can't be carried out: none is, and the message says which */
    struct lafkuno_order beyond = lafkuno_rows(1, 1, 4);
    struct ArrowArray nothing;
    if (lafkuno_join_arrays(vans, 2, &beyond, 1, NULL, NULL, &nothing, &error)) puts(error.message);
    schema.release(&schema);
    joined.release(&joined);
    return 0;
}
