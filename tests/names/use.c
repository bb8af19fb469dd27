/* Every header that `names` printed, in one program with songrafter.h: the names are C's, and mean what they say. */
#include "songrafter.h"
#include "grammars/iso7816.h"
#include "grammars/tlv.h"
#include "grammars/mailer.h"

int main(void) {
    uint32_t reading[RESPONSE_READING_WORDS(SONGRAFTER_FRAME_BYTES)];
    if (sizeof reading != SONGRAFTER_READING_WORDS * sizeof reading[0]) return 1;
    if (RESPONSE_STEPS(8 * 3) != (uint64_t)RESPONSE_WEIGHT * 25) return 2;
    return RESPONSE_LENGTH_VARIABLE == 0 && RESPONSE_LENGTH_CONSTRUCT == 1 && RESPONSE_LENGTH_WIDTH == 8 ? 0 : 3;
}
