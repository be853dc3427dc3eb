/* The plain C that ours is measured against. */
#include <stddef.h>
#include <stdint.h>

/* SHA-512 of the message. */
void plain_sha512(const uint8_t *message, size_t length, uint8_t digest[64]);

/* The offset of the first byte that is no residue, or the length. */
size_t plain_residues(const uint8_t *text, size_t length);

/* The length of the longest common prefix, and suffix, of two texts of one length. */
size_t plain_common_prefix(const uint8_t *one, const uint8_t *other, size_t length);
size_t plain_common_suffix(const uint8_t *one, const uint8_t *other, size_t length);

/* The sum of all bytes: what it takes to read them. */
uint64_t plain_read(const uint8_t *bytes, size_t length);
