/* Calls the proved check of a record as a C host does. */
#include "jaswirku_record.h"
#include <stdio.h>
#include <string.h>

static int failures = 0;

static void expect(const char *what, uint32_t expected, const uint8_t *bytes, size_t length) {
    uint8_t before[64];
    memcpy(before, bytes, length);
    uint32_t answer = jaswirku_check_record(bytes, length);
    if (answer != expected || memcmp(before, bytes, length) != 0) {
        printf("%s: answered %u, expected %u\n", what, (unsigned)answer, (unsigned)expected);
        failures++;
    }
}

int main(void) {
    uint8_t price[33] = {'P', 0, 0, 0, 0, 0, 0, 101, 0, 0, 0, 0, 0, 0, 0x03, 0xde};
    uint8_t strike[32] = {'K'};
    uint8_t unknown[32] = {'Z'};
    uint8_t spoiled[32] = {'P', 0, 0, 1};
    uint8_t unused[32] = {'K', 0, 0, 0, 0, 0, 0, 101};

    expect("a price", 0, price, 32);
    expect("a strike", 0, strike, 32);
    expect("an unknown letter", 10, unknown, 32);
    expect("a zero byte spoiled", 10, spoiled, 32);
    expect("an unused field spoiled", 10, unused, 32);
    expect("a short record", 10, price, 31);
    expect("a long record", 10, price, 33);
    expect("no bytes", 10, price, 0);
    printf("c_host: %d failed\n", failures);
    return failures != 0;
}
