/* The yardstick over OpenSSL's low-level SHA-256, which picks the assembler for the processor. */
#define OPENSSL_SUPPRESS_DEPRECATED
#include <openssl/sha.h>
#include <stddef.h>
#include <stdint.h>

static void sha256(const uint8_t *message, size_t length, uint8_t digest[32]) {
    SHA256_CTX context;
    SHA256_Init(&context);
    SHA256_Update(&context, message, length);
    SHA256_Final(digest, &context);
}

static void sha256_55(const uint8_t message[55], uint8_t digest[32]) {
    sha256(message, 55, digest);
}

#include "lms.h"
