/* What a program may write with the header's names, in each language for which tests/installed.sh compiles this. */
#include "fearnavult.h"

extern const char version[];
const char version[] = "version " FV_VERSION;

extern uint8_t image[];
uint8_t image[FV_IMAGE_SIZE(FV_COUNT_LIMIT, FV_COUNT_LIMIT, FV_POOL_LIMIT)];

#if FV_VERSION_MAJOR == 0 && FV_VERSION_MINOR < 4
#error "the program needs fv_check"
#endif

int told(uint8_t *identifier, const uint8_t *reference, size_t reference_len);
int told(uint8_t *identifier, const uint8_t *reference, size_t reference_len) {
    fv_written w = fv_sequence_identifier(reference, reference_len, identifier, FV_IDENTIFIER_LENGTH, 0);
    switch (w.refusal) {
    case FV_ACCEPTED: return w.length == FV_IDENTIFIER_LENGTH;
    case FV_OVER_LIMIT: return reference_len > FV_REFERENCE_LIMIT;
    case FV_FOREIGN_INPUT: return w.value < reference_len;
    default: return 0;
    }
}
