/* Refusals in words: where, and why. */
#include "layer.h"

#include <inttypes.h>
#include <stdarg.h>
#include <stdio.h>
#include <string.h>

const char *lafkuno_version(void) { return LAFKUNO_VERSION; }

const char *lafkuno_meaning(int code) {
    static const char *const grounds[] = {
        "done",
        "the source's number is not below the count of sources",
        "the end is before the start, or beyond the source's length",
        "an order of nulls where no nulls are kept: no source has one, and keep_nulls is not set",
        "nulls for a union without fields",
        "nulls for a union none of whose fields is nullable",
        "an offset or a dense union's position does not fit its type",
        "a run end does not fit its type",
        "the dictionary has more entries than its keys can name",
        "a ceiling is passed, or a length or offset is negative",
        "a type that is not taken",
        "the sources have different types",
        "the source breaks the rules of its type",
        "a part of the room can't hold its bytes",
        "the parts of the room do not fit",
        "an exact sum does not fit 64 bits",
        "no row counts, or the second total is 0",
        "no row of the range counts",
    };
    switch (code) {
        case LAFKUNO_NO_MEMORY: return "there is no memory left";
        case LAFKUNO_BAD_STRUCT: return "a struct is released or breaks the Arrow C Data Interface";
        case LAFKUNO_TOO_MUCH_WORK: return "the orders may come to more rows than are allowed";
        default: return code >= 0 && (size_t)code < sizeof grounds / sizeof *grounds ? grounds[code] : "an unknown number";
    }
}

struct report report_to(struct lafkuno_error *error, struct lafkuno_error *spare) {
    struct report report = {error ? error : spare, NULL, NULL, NULL};
    *report.error = (struct lafkuno_error){.column = -1, .source = -1, .order = -1, .node = -1, .row = -1};
    return report;
}

void at_source(struct report *report, int64_t source) {
    report->error->source = source;
    at_node(report, -1, NULL);
}

void at_node(struct report *report, int64_t node, const struct ArrowSchema *schema) {
    report->error->node = node;
    report->node = schema;
}

void at_order(struct report *report, int64_t number, const struct lafkuno_order *order) {
    report->error->order = number;
    report->order = order;
}

/* Adds to the message, as far as it has room. */
LIKE_PRINTF(2, 3) static void say(struct report *report, const char *text, ...) {
    char *message = report->error->message;
    size_t used = strlen(message);
    va_list values;
    va_start(values, text);
    vsnprintf(message + used, LAFKUNO_MESSAGE - used, text, values);
    va_end(values);
}

static void say_name(struct report *report, const char *name) {
    if (name && *name) say(report, " '%.60s'", name);
}

static void say_order(struct report *report) {
    const struct lafkuno_order *order = report->order;
    say(report, ", order %" PRId64, report->error->order);
    if (order->source == LAFKUNO_GAP) say(report, " (nulls %" PRIu64 ")", order->end - order->start);
    else say(report, " (copy %" PRIu32 " %" PRIu64 "..%" PRIu64 ")", order->source, order->start, order->end);
}

/* "column 2 'fuel', source 0, node 1 'item' (u), row 0, order 4 (copy 0 3..5): " */
static void say_place(struct report *report) {
    struct lafkuno_error *error = report->error;
    if (error->column >= 0) {
        say(report, ", column %" PRId64, error->column);
        say_name(report, report->column);
    }
    if (error->source >= 0) say(report, ", source %" PRId64, error->source);
    if (error->node >= 0) {
        say(report, ", node %" PRId64, error->node);
        if (report->node) {
            say_name(report, report->node->name);
            if (report->node->format) say(report, " (%.60s)", report->node->format);
        }
    }
    if (error->row >= 0) say(report, ", row %" PRId64, error->row);
    if (error->order >= 0) say_order(report);
    if (error->message[0]) {
        memmove(error->message, error->message + 2, strlen(error->message + 2) + 1);
        say(report, ": ");
    }
}

int refuse(struct report *report, int code, const char *text, ...) {
    struct lafkuno_error *error = report->error;
    error->code = code;
    error->message[0] = 0;
    say_place(report);
    size_t used = strlen(error->message);
    va_list values;
    va_start(values, text);
    vsnprintf(error->message + used, LAFKUNO_MESSAGE - used, text, values);
    va_end(values);
    if (code < LAFKUNO_NO_MEMORY) say(report, " (ground %d)", code);
    return code;
}

int refuse_plainly(struct report *report, int code) { return refuse(report, code, "%s", lafkuno_meaning(code)); }

int refuse_memory(struct report *report) { return refuse_plainly(report, LAFKUNO_NO_MEMORY); }

int refuse_above(struct report *report, int code, uint64_t found, uint64_t allowed, const char *what) {
    report->error->found = found;
    report->error->allowed = allowed;
    return refuse(report, code, "%" PRIu64 " %s, and %" PRIu64 " are allowed", found, what, allowed);
}
