/* The writes and syncs of a key vault: two slots and a gate byte, and for each reservation the other
 * slot, a sync, the gate byte and a sync. Its words are those of layer_bench behind 'vault'. */
#include <fcntl.h>
#include <stdint.h>
#include <stdio.h>
#include <stdlib.h>
#include <string.h>
#include <time.h>
#include <unistd.h>

static void need(int good, const char *what) {
    if (!good) {
        perror(what);
        exit(1);
    }
}

static void write_at(int file, off_t at, const uint8_t *bytes, size_t length) {
    need(lseek(file, at, SEEK_SET) == at, "lseek");
    need(write(file, bytes, length) == (ssize_t)length, "write");
}

static void in_order(int file, off_t at, const uint8_t *bytes, size_t length, uint8_t gate) {
    write_at(file, at, bytes, length);
    need(fsync(file) == 0, "fsync");
    write_at(file, 128, &gate, 1);
    need(fsync(file) == 0, "fsync");
}

int main(int count, char **words) {
    need(count == 3, "vault FILE COUNT");
    int file = open(words[1], O_RDWR | O_CREAT, 0666);
    need(file >= 0, "open");
    uint8_t slots[128] = {0};
    memset(slots, 7, 32);
    memset(slots + 64, 7, 32);
    in_order(file, 0, slots, sizeof slots, 0);
    uint64_t turns = strtoull(words[2], NULL, 10);
    struct timespec begun, ended;
    clock_gettime(CLOCK_MONOTONIC, &begun);
    uint8_t slot[40], gate = 0;
    memset(slot, 7, 32);
    for (uint64_t number = 1; number <= turns; number++) {
        for (int i = 0; i < 8; i++) slot[32 + i] = number >> (56 - 8 * i);
        gate = 1 - gate;
        in_order(file, 64 * gate, slot, sizeof slot, gate);
    }
    clock_gettime(CLOCK_MONOTONIC, &ended);
    long long time = (ended.tv_sec - begun.tv_sec) * 1000000000LL + (ended.tv_nsec - begun.tv_nsec);
    printf("reserve %lld %llu\n", time, (unsigned long long)turns);
    return 0;
}
