/* Destructors of the PyCapsules of bindings/python, which alone calls what is here. A capsule may die while an exception is on its way,
 * when no Python code can run; so they are C. */
#include "layer.h"

#include <stdatomic.h>
#include <stdlib.h>

/* PyCapsule_GetPointer, told by whoever has Python: the library is not linked with it. */
typedef void *pointer_of_capsule(void *capsule, const char *name);
static _Atomic(pointer_of_capsule *) get_pointer;

LAFKUNO_API void lafkuno_capsules_begin(pointer_of_capsule *function);
LAFKUNO_API void *lafkuno_capsule_struct(size_t bytes);
LAFKUNO_API void lafkuno_drop_schema_capsule(void *capsule);
LAFKUNO_API void lafkuno_drop_array_capsule(void *capsule);

void lafkuno_capsules_begin(pointer_of_capsule *function) { atomic_store(&get_pointer, function); }

/* Memory of zeros for a struct that a capsule owns. */
void *lafkuno_capsule_struct(size_t bytes) { return calloc(1, bytes); }

/* A consumer that took the struct has set its release callback to NULL. */
void lafkuno_drop_schema_capsule(void *capsule) {
    struct ArrowSchema *schema = atomic_load(&get_pointer)(capsule, "arrow_schema");
    if (schema && schema->release) schema->release(schema);
    free(schema);
}

void lafkuno_drop_array_capsule(void *capsule) {
    struct ArrowArray *array = atomic_load(&get_pointer)(capsule, "arrow_array");
    if (array && array->release) array->release(array);
    free(array);
}
