/* The two common lengths as byte loops. */
#include "plain.h"

size_t plain_common_prefix(const uint8_t *one, const uint8_t *other, size_t length) {
    size_t i = 0;
    while (i < length && one[i] == other[i]) i++;
    return i;
}

size_t plain_common_suffix(const uint8_t *one, const uint8_t *other, size_t length) {
    size_t i = 0;
    while (i < length && one[length - i - 1] == other[length - i - 1]) i++;
    return i;
}
