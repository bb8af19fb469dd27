/* The header as C99 and as C++11: every number of refusal and every verdict has a text of its own, and the archive is of
 * the header's version. Ends with 0 where that is so. */
#include "songrafter.h"

#include <string.h>

static int told(size_t number) { return strcmp(songrafter_refusal_text(number), songrafter_refusal_text(14)) != 0; }

int main(void) {
    size_t n;
    uint32_t v;
    for (n = SONGRAFTER_OK; n <= SONGRAFTER_NO_VALUE; n++)
        if (!told(n)) return 1;
    for (n = SONGRAFTER_FRAME_LONG; n <= SONGRAFTER_RUN_UNFIT; n++)
        if (!told(n)) return 2;
    for (v = SONGRAFTER_UNDECIDED; v <= SONGRAFTER_BROKEN; v++)
        if (strcmp(songrafter_verdict_text(v), songrafter_verdict_text(5)) == 0) return 3;
    if (told(15) || told(20) || told(25)) return 4;
    return songrafter_version() == SONGRAFTER_VERSION_NUMBER ? 0 : 5;
}
