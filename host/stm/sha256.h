/* The digest SHA-256 of FIPS 180-4, by which files are told apart from copies that were changed. */
#ifndef STM_SHA256_H
#define STM_SHA256_H

#include <stddef.h>
#include <stdint.h>

/* The digits of a digest in hexadecimal, and a closing NUL. */
enum { SHA256_TEXT = 65 };

void sha256_text(const uint8_t *bytes, size_t len, char text[SHA256_TEXT]);

#endif
