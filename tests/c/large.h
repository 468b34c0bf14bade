/* Small sources of each kind, for joins over large bodies. */
#ifndef LARGE_H
#define LARGE_H

#include "column.h"

/* The nodes of one source, whose bytes begin with `b`, behind those of a column. */
typedef void lay_source(struct column *c, uint8_t b);

lay_source lay_numbers, lay_text, lay_views, lay_list_views, lay_lists, lay_sparse, lay_dense, lay_runs, lay_keys;

#endif
