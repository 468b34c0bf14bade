/* Calls that write a column's rows in another type: one is asked, lent what it needs, made, finished, and its result lent again and read. */
#ifndef CONVERT_H
#define CONVERT_H

#include "column.h"

enum way { TO_LIST, TO_LIST_VIEW, TO_WIDTHS };

/* A column and the type of the result, each by its first node and how many nodes it has. */
struct pair {
    uint32_t first, n, target, target_n;
};

/* What is lent otherwise than it is due: bytes that the last part lacks, parts too many, numbers that the plan lacks, and whether the last two
 * parts begin at the same byte. */
struct wrong {
    unsigned less, more_parts, short_plan, overlap;
};

/* ---- columns */

/* A node of a type alone. */
void type(struct column *c, const char *format, uint32_t children);

/* ---- lines */

/* One line: what was asked, then the ground; or the parts by node and buffer, the null counts, and the rows, which are those of the column. */
void show(const char *what, const struct column *c, enum way way, struct pair p);
/* The same with something wrong. */
void show_wrong(const char *what, const struct column *c, enum way way, struct pair p, struct wrong w);
/* The ground and how many parts alone: of columns whose rows are too many to be read. */
void show_ground(const char *what, const struct column *c, enum way way, struct pair p);

/* The bytes of the last node's parts after the result was converted back to the column's type over the same body, and the rows. */
void show_back(const char *what, const struct column *c, enum way way, struct pair p);

/* The lines of other widths (02, W13): convert_widths.c. */
void show_widths(void);

#endif
