/* Keys, signatures and verification of LM-OTS and LMS (RFC 8554, sections 4 and 5) with SHA-256,
 * written out once over two functions that the file which includes this one defines:
 *
 *   static void sha256(const uint8_t *message, size_t length, uint8_t digest[32]);
 *   static void sha256_55(const uint8_t message[55], uint8_t digest[32]);
 *
 * Secrets are derived as in Appendix A, the randomizer as the secret of chain 0xfffd. A yardstick:
 * it checks nothing that a caller hands in.
 *
 *   PROGRAM step N                 N chains of 255 steps, the ends joined by exclusive or
 *   PROGRAM make HEIGHT WIDTH WORKERS
 *   PROGRAM sign WIDTH ROUNDS      each leaf of a tree of height 5 signs in each round,
 *                                  and each signature is verified
 *
 * prints nanoseconds, and some bytes of the result in hexadecimal digits:
 *   step NANOSECONDS BYTES
 *   make NANOSECONDS BYTES
 *   sign NANOSECONDS verify NANOSECONDS BYTES
 */
#include <pthread.h>
#include <stdint.h>
#include <stdio.h>
#include <stdlib.h>
#include <string.h>
#include <time.h>

enum { D_PBLC = 0x8080, D_MESG = 0x8181, D_LEAF = 0x8282, D_INTR = 0x8383, RANDOMIZER = 0xfffd };
enum { MAX_CHAINS = 265, MAX_HEIGHT = 15 };

static const uint8_t ID[16] = {7, 7, 7, 7, 7, 7, 7, 7, 7, 7, 7, 7, 7, 7, 7, 7};

typedef struct {
    int width, chains, shift, code;
} ots_type;

static ots_type type_of(int width) {
    switch (width) {
    case 1: return (ots_type){1, 265, 7, 1};
    case 2: return (ots_type){2, 133, 6, 2};
    case 4: return (ots_type){4, 67, 4, 3};
    default: return (ots_type){8, 34, 0, 4};
    }
}

static int64_t nanoseconds(void) {
    struct timespec t;
    clock_gettime(CLOCK_MONOTONIC, &t);
    return (int64_t)t.tv_sec * 1000000000 + t.tv_nsec;
}

/* The bytes that every hashed text begins with. */
static void put_tagged(uint8_t *out, uint32_t number, uint16_t tag) {
    memcpy(out, ID, 16);
    out[16] = number >> 24;
    out[17] = number >> 16;
    out[18] = number >> 8;
    out[19] = number;
    out[20] = tag >> 8;
    out[21] = tag;
}

/* ---- LM-OTS */

static void chain(uint32_t q, int i, int from, int to, uint8_t value[32]) {
    uint8_t message[55];
    put_tagged(message, q, i);
    for (int j = from; j < to; j++) {
        message[22] = j;
        memcpy(message + 23, value, 32);
        sha256_55(message, value);
    }
}

static void start(uint32_t q, int i, const uint8_t seed[32], uint8_t value[32]) {
    uint8_t message[55];
    put_tagged(message, q, i);
    message[22] = 0xff;
    memcpy(message + 23, seed, 32);
    sha256_55(message, value);
}

static int digit(const uint8_t *s, int i, int w) {
    return (s[i * w / 8] >> (8 - (w * (i % (8 / w)) + w))) & ((1 << w) - 1);
}

/* The hash of a text with its checksum. */
static void message_digits(ots_type t, uint32_t q, const uint8_t c[32], const uint8_t *text,
                           size_t length, uint8_t s[34]) {
    uint8_t message[22 + 32 + 64];
    put_tagged(message, q, D_MESG);
    memcpy(message + 22, c, 32);
    memcpy(message + 54, text, length);
    sha256(message, 54 + length, s);
    int sum = 0;
    for (int i = 0; i < 256 / t.width; i++) sum += (1 << t.width) - 1 - digit(s, i, t.width);
    sum <<= t.shift;
    s[32] = sum >> 8;
    s[33] = sum;
}

static void ots_public(ots_type t, uint32_t q, const uint8_t seed[32], uint8_t key[32]) {
    uint8_t all[22 + 32 * MAX_CHAINS];
    put_tagged(all, q, D_PBLC);
    for (int i = 0; i < t.chains; i++) {
        start(q, i, seed, all + 22 + 32 * i);
        chain(q, i, 0, (1 << t.width) - 1, all + 22 + 32 * i);
    }
    sha256(all, 22 + 32 * t.chains, key);
}

static size_t ots_length(ots_type t) { return 4 + 32 * (t.chains + 1); }

static void ots_sign(ots_type t, uint32_t q, const uint8_t seed[32], const uint8_t *text,
                     size_t length, uint8_t *out) {
    uint8_t s[34];
    memset(out, 0, 3);
    out[3] = t.code;
    start(q, RANDOMIZER, seed, out + 4);
    message_digits(t, q, out + 4, text, length, s);
    for (int i = 0; i < t.chains; i++) {
        start(q, i, seed, out + 36 + 32 * i);
        chain(q, i, 0, digit(s, i, t.width), out + 36 + 32 * i);
    }
}

static void ots_candidate(ots_type t, uint32_t q, const uint8_t *text, size_t length,
                          const uint8_t *sig, uint8_t key[32]) {
    uint8_t s[34], all[22 + 32 * MAX_CHAINS];
    message_digits(t, q, sig + 4, text, length, s);
    put_tagged(all, q, D_PBLC);
    memcpy(all + 22, sig + 36, 32 * t.chains);
    for (int i = 0; i < t.chains; i++)
        chain(q, i, digit(s, i, t.width), (1 << t.width) - 1, all + 22 + 32 * i);
    sha256(all, 22 + 32 * t.chains, key);
}

/* ---- LMS */

static void leaf_node(uint32_t r, const uint8_t key[32], uint8_t node[32]) {
    uint8_t message[54];
    put_tagged(message, r, D_LEAF);
    memcpy(message + 22, key, 32);
    sha256(message, sizeof message, node);
}

static void inner_node(uint32_t r, const uint8_t *left, const uint8_t *right, uint8_t node[32]) {
    uint8_t message[86];
    put_tagged(message, r, D_INTR);
    memcpy(message + 22, left, 32);
    memcpy(message + 54, right, 32);
    sha256(message, sizeof message, node);
}

typedef struct {
    ots_type type;
    const uint8_t *seed;
    uint8_t (*nodes)[32];
    uint32_t leaves, first, end;
} part;

static void *make_leaves(void *argument) {
    part *p = argument;
    for (uint32_t q = p->first; q < p->end; q++) {
        uint8_t key[32];
        ots_public(p->type, q, p->seed, key);
        leaf_node(p->leaves + q, key, p->nodes[p->leaves + q]);
    }
    return NULL;
}

/* All nodes of the tree, each at its number, the leaves in as many threads as asked for. */
static void make(ots_type t, int height, const uint8_t seed[32], int workers,
                 uint8_t (*nodes)[32]) {
    uint32_t leaves = 1u << height;
    pthread_t threads[64];
    part parts[64];
    for (int k = 0; k < workers; k++) {
        parts[k] = (part){t, seed, nodes, leaves, (uint64_t)leaves * k / workers,
                          (uint64_t)leaves * (k + 1) / workers};
        if (k > 0) pthread_create(&threads[k], NULL, make_leaves, &parts[k]);
    }
    make_leaves(&parts[0]);
    for (int k = 1; k < workers; k++) pthread_join(threads[k], NULL);
    for (uint32_t r = leaves - 1; r >= 1; r--)
        inner_node(r, nodes[2 * r], nodes[2 * r + 1], nodes[r]);
}

static void sign(ots_type t, int height, const uint8_t seed[32], uint8_t (*nodes)[32], uint32_t q,
                 const uint8_t *text, size_t length, uint8_t *out) {
    out[0] = q >> 24;
    out[1] = q >> 16;
    out[2] = q >> 8;
    out[3] = q;
    ots_sign(t, q, seed, text, length, out + 4);
    uint8_t *path = out + 4 + ots_length(t);
    memset(path, 0, 3);
    path[3] = 4 + height / 5;
    uint32_t r = (1u << height) + q;
    for (int i = 0; i < height; i++, r /= 2) memcpy(path + 4 + 32 * i, nodes[r ^ 1], 32);
}

static int verify(ots_type t, int height, const uint8_t root[32], const uint8_t *text,
                  size_t length, const uint8_t *sig) {
    uint32_t q = (uint32_t)sig[0] << 24 | sig[1] << 16 | sig[2] << 8 | sig[3];
    const uint8_t *path = sig + 8 + ots_length(t);
    uint8_t key[32], node[32];
    ots_candidate(t, q, text, length, sig + 4, key);
    uint32_t r = (1u << height) + q;
    leaf_node(r, key, node);
    for (int i = 0; r > 1; i++, r /= 2) {
        if (r & 1)
            inner_node(r / 2, path + 32 * i, node, node);
        else
            inner_node(r / 2, node, path + 32 * i, node);
    }
    return memcmp(node, root, 32) == 0;
}

/* ---- the measurements */

static void print_bytes(const uint8_t *bytes) {
    for (int i = 0; i < 8; i++) printf("%02x", bytes[i]);
    printf("\n");
}

static void measure_steps(int chains) {
    uint8_t all[32] = {0};
    int64_t begun = nanoseconds();
    for (int q = 0; q < chains; q++) {
        uint8_t value[32];
        memset(value, 1, 32);
        chain(q, 3, 0, 255, value);
        for (int i = 0; i < 32; i++) all[i] ^= value[i];
    }
    printf("step %lld ", (long long)(nanoseconds() - begun));
    print_bytes(all);
}

static void measure_make(int height, int width, int workers) {
    uint8_t seed[32];
    memset(seed, 1, 32);
    int64_t begun = nanoseconds();
    uint8_t(*nodes)[32] = malloc((size_t)64 << height);
    make(type_of(width), height, seed, workers, nodes);
    printf("make %lld ", (long long)(nanoseconds() - begun));
    print_bytes(nodes[1]);
    free(nodes);
}

static int measure_signatures(int width, int rounds) {
    ots_type t = type_of(width);
    uint8_t seed[32], nodes[64][32], sig[8 + 4 + 32 * (MAX_CHAINS + 1) + 32 * 5];
    memset(seed, 1, 32);
    make(t, 5, seed, 1, nodes);
    int64_t signing = 0, verifying = 0;
    for (int round = 0; round < rounds; round++)
        for (uint32_t q = 0; q < 32; q++) {
            const uint8_t text[4] = {round >> 8, round, q >> 8, q};
            int64_t begun = nanoseconds();
            sign(t, 5, seed, nodes, q, text, 4, sig);
            int64_t signed_at = nanoseconds();
            int good = verify(t, 5, nodes[1], text, 4, sig);
            verifying += nanoseconds() - signed_at;
            signing += signed_at - begun;
            if (!good) return 1;
        }
    printf("sign %lld verify %lld ", (long long)signing, (long long)verifying);
    print_bytes(sig + 40);
    return 0;
}

int main(int count, char **words) {
    if (count == 3 && !strcmp(words[1], "step"))
        measure_steps(atoi(words[2]));
    else if (count == 5 && !strcmp(words[1], "make"))
        measure_make(atoi(words[2]), atoi(words[3]), atoi(words[4]));
    else if (count == 4 && !strcmp(words[1], "sign"))
        return measure_signatures(atoi(words[2]), atoi(words[3]));
    else
        return 2;
    return 0;
}
