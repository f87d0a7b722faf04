// What c/dihkelu.h takes from the C library, which is not there in WebAssembly.
#include <stddef.h>
void *memcpy(void *to, const void *from, size_t count);
void *memset(void *to, int value, size_t count);
