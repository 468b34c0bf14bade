/* Format strings: what a logical type is stored as, and what buffers a format has. */
#include "layer.h"

#include <string.h>

static bool one_of(const char *format, const char *const *list) {
    for (; *list; list++)
        if (!strcmp(format, *list)) return true;
    return false;
}

static bool begins(const char *format, const char *with) { return !strncmp(format, with, strlen(with)); }

const char *storage_of(const char *format) {
    /* days, seconds and milliseconds of a day, months */
    static const char *const in_four[] = {"tdD", "tts", "ttm", "tiM", NULL};
    /* milliseconds, finer times of a day, days with milliseconds, durations */
    static const char *const in_eight[] = {"tdm", "ttu", "ttn", "tiD", "tDs", "tDm", "tDu", "tDn", NULL};
    static const char *const timestamps[] = {"tss:", "tsm:", "tsu:", "tsn:", NULL};
    if (!strcmp(format, "e")) return "S";
    if (one_of(format, in_four)) return "i";
    if (one_of(format, in_eight)) return "l";
    for (const char *const *t = timestamps; *t; t++)
        if (begins(format, *t)) return "l";
    return format;
}

static unsigned fixed_width(char letter) {
    switch (letter) {
        case 'c': case 'C': return 1;
        case 's': case 'S': return 2;
        case 'i': case 'I': case 'f': return 4;
        case 'l': case 'L': case 'g': return 8;
        default: return 0;
    }
}

struct format format_of(const char *format) {
    struct format answer = {NOT_TAKEN, 0};
    if (strlen(format) == 1) {
        answer.width = fixed_width(format[0]);
        if (answer.width) answer.kind = FIXED;
        else if (format[0] == 'u' || format[0] == 'z') answer = (struct format){STRING, 4};
        else if (format[0] == 'U' || format[0] == 'Z') answer = (struct format){STRING, 8};
    } else if (!strcmp(format, "vu") || !strcmp(format, "vz")) {
        answer = (struct format){VIEW, 16};
    } else if (!strcmp(format, "+l") || !strcmp(format, "+L")) {
        answer = (struct format){LIST, format[1] == 'l' ? 4 : 8};
    } else if (!strcmp(format, "+vl") || !strcmp(format, "+vL")) {
        answer = (struct format){LIST_VIEW, format[2] == 'l' ? 4 : 8};
    } else if (!strcmp(format, "+r")) {
        answer.kind = RUNS;
    } else if (begins(format, "+us:")) {
        answer.kind = SPARSE;
    } else if (begins(format, "+ud:")) {
        answer.kind = DENSE;
    }
    return answer;
}

bool union_children(const char *format, int8_t child_of[256]) {
    const char *at = format + strlen("+ud:");
    memset(child_of, -1, 256);
    for (int8_t child = 0; *at; child++) {
        unsigned id = 0, digits = 0;
        for (; *at >= '0' && *at <= '9' && digits < 3; at++, digits++) id = 10 * id + (unsigned)(*at - '0');
        if (!digits || id > 127 || child_of[id] >= 0 || child >= MOST_FIELDS) return false;
        child_of[id] = child;
        if (*at == ',' && at[1]) at++;
        else if (*at) return false;
    }
    return true;
}

int64_t number_at(const void *from, uint64_t index, unsigned width) {
    const uint8_t *at = (const uint8_t *)from + index * width;
    int8_t one;
    int16_t two;
    int32_t four;
    int64_t eight;
    switch (width) {
        case 1: memcpy(&one, at, 1); return one;
        case 2: memcpy(&two, at, 2); return two;
        case 4: memcpy(&four, at, 4); return four;
        default: memcpy(&eight, at, 8); return eight;
    }
}
