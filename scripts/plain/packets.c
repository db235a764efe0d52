/* A plain reader of packets, to compare with: packets [packets|noise] TIMES [write]. It takes 1,040 bytes again and again, looks
 * for the signature, tests the sum of the header and the CRC by a table, and counts; or it writes them as often. */
#include <stdint.h>
#include <stdio.h>
#include <stdlib.h>
#include <string.h>

static uint16_t table[256];

static void make_table(void) {
    for (int byte = 0; byte < 256; byte++) {
        uint16_t crc = (uint16_t)(byte << 8);
        for (int bit = 0; bit < 8; bit++) crc = crc & 0x8000 ? (uint16_t)(crc << 1 ^ 0x1021) : (uint16_t)(crc << 1);
        table[byte] = crc;
    }
}

static uint16_t crc_of(const uint8_t *bytes, size_t count) {
    uint16_t crc = 0;
    for (size_t place = 0; place < count; place++) crc = (uint16_t)(crc << 8) ^ table[(crc >> 8 ^ bytes[place]) & 0xFF];
    return crc;
}

/* The length of the packet that begins here, or 0. */
static size_t packet_at(const uint8_t *bytes, size_t count) {
    static const uint8_t signature[3] = {0xBE, 0xEF, 0xED};
    if (count < 10 || memcmp(bytes, signature, 3) != 0) return 0;
    uint8_t sum = 0;
    for (int place = 0; place < 9; place++) sum = (uint8_t)(sum + bytes[place]);
    size_t size = (size_t)bytes[6] << 8 | bytes[7];
    if (sum != bytes[9] || size > 1028 || count < size + 12) return 0;
    uint16_t crc = (uint16_t)(bytes[10 + size] << 8 | bytes[11 + size]);
    return crc == crc_of(bytes, 10 + size) ? size + 12 : 0;
}

static uint8_t buffer[1040];

int main(int count, char **words) {
    int is_noise = count > 1 && strcmp(words[1], "noise") == 0;
    long times = count > 2 ? atol(words[2]) : 1;
    uint8_t text[1040];
    make_table();
    if (is_noise) {
        for (int place = 0; place < 1040; place++) text[place] = (uint8_t)(place % 251);
    } else {
        const uint8_t head[9] = {0xBE, 0xEF, 0xED, 3, 3, 2, 1028 >> 8, 1028 & 0xFF, 1};
        memcpy(text, head, 9);
        text[9] = 0;
        for (int place = 0; place < 9; place++) text[9] = (uint8_t)(text[9] + text[place]);
        for (int place = 0; place < 1028; place++) text[10 + place] = (uint8_t)(place % 251);
        uint16_t crc = crc_of(text, 1038);
        text[1038] = (uint8_t)(crc >> 8);
        text[1039] = (uint8_t)crc;
    }
    if (count > 3) {
        for (long turn = 0; turn < times; turn++) fwrite(text, 1, sizeof text, stdout);
        return 0;
    }
    unsigned long bytes = 0, packets = 0;
    for (long turn = 0; turn < times; turn++) {
        memcpy(buffer, text, sizeof buffer);
        size_t place = 0;
        while (place < sizeof buffer) {
            size_t length = packet_at(buffer + place, sizeof buffer - place);
            if (length != 0) packets++;
            place += length != 0 ? length : 1;
        }
        bytes += sizeof buffer;
    }
    printf("bytes %lu packets %lu\n", bytes, packets);
    return 0;
}
