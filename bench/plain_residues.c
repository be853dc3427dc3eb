/* The test for residues as a byte loop. */
#include "plain.h"

size_t plain_residues(const uint8_t *text, size_t length) {
    for (size_t i = 0; i < length; i++)
        if ((text[i] < 'A' || text[i] > 'Z') && text[i] != '*' && text[i] != '-') return i;
    return length;
}
