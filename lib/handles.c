/* Handles for programs that don't place them themselves, of the memory that the library takes for all else. */
#include "deltat.h"
#include "memory.h"

/* what the functions for memory promise of each block */
enum { ALIGNMENT = 16 };

/* Memory for a handle, or null. */
static void *block(size_t size, size_t align) {
    struct tried it = {false, NULL};
    if (align <= ALIGNMENT) it = rattle_alloc(size, align);
    return it.ok ? it.p : NULL;
}

dt_node *dt_node_new(void) {
    dt_node *node = (dt_node *)block(dt_node_size(), dt_node_align());
    if (node != NULL) dt_node_init(node);
    return node;
}

void dt_node_free(dt_node *node) {
    if (node == NULL) return;
    dt_node_close(node);
    rattle_dealloc((uint8_t *)node);
}

dt_service *dt_service_new(void) {
    dt_service *service = (dt_service *)block(dt_service_size(), dt_service_align());
    if (service != NULL) dt_service_init(service);
    return service;
}

void dt_service_free(dt_service *service) {
    if (service == NULL) return;
    dt_service_close(service);
    rattle_dealloc((uint8_t *)service);
}
