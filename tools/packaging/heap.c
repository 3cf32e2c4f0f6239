/* Stands in for the toolchain's functions that call malloc, realloc and free. */
#include <stdlib.h>

void *rattle_alloc(size_t len);
void *rattle_realloc(void *block, size_t len);
void rattle_dealloc(void *block);

void *rattle_alloc(size_t len) { return malloc(len); }

void *rattle_realloc(void *block, size_t len) { return realloc(block, len); }

void rattle_dealloc(void *block) { free(block); }
