/* An archive of another version, for host/test: it may be asked for its version, and no other function may be called.
 * The others are here by their names alone, since their declarations may be others too. */
#include <stdint.h>
#include <stdlib.h>

uint32_t argcol_version(void) {
    return UINT32_MAX;
}

void argcol_fresh(void) {
    abort();
}

void argcol_step(void) {
    abort();
}

void argcol_closing(void) {
    abort();
}

void argcol_text(void) {
    abort();
}
