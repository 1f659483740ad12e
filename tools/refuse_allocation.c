/* Stands before malloc and its kin, for tools/starve: the allocation of the number in the variable
   REFUSED_ALLOCATION is refused, and the file `refused` is made then. Frees are the C library's. */
#include "allocations.h"

#include <stdatomic.h>
#include <stdlib.h>

static atomic_ulong made;
static unsigned long refused_number; /* none is refused before the program begins */

__attribute__((constructor)) static void begin(void) {
    const char *number = getenv("REFUSED_ALLOCATION");
    atomic_store(&made, 0);
    refused_number = number ? strtoul(number, NULL, 10) : 0;
}

static int is_refused(void) {
    if (refused_number == 0 || atomic_fetch_add(&made, 1) + 1 != refused_number)
        return 0;
    return refuse();
}
