/* A plain reader of database files, to compare with: it reads the whole file, tests the name, the chain of lists, the
 * order of the blocks and their sizes, copies each record into memory of its own, and prints how many there are. */
#include <stdint.h>
#include <stdio.h>
#include <stdlib.h>
#include <string.h>

static uint32_t number_at(const uint8_t *bytes, int width) {
    uint32_t number = 0;
    for (int place = 0; place < width; place++) number = number << 8 | bytes[place];
    return number;
}

struct record {
    uint32_t id;
    uint8_t attributes;
    size_t length;
    uint8_t *bytes;
};

int main(int count, char **words) {
    if (count < 2) return 2;
    FILE *file = fopen(words[1], "rb");
    if (file == NULL) return 4;
    size_t length = 0, room = 1 << 16;
    uint8_t *bytes = malloc(room);
    for (size_t taken; bytes != NULL && (taken = fread(bytes + length, 1, room - length, file)) > 0;) {
        length += taken;
        if (length == room) bytes = realloc(bytes, room *= 2);
    }
    fclose(file);
    if (bytes == NULL) return 5;
    if (length < 78 || memchr(bytes, 0, 32) == NULL || bytes[0] == 0 || number_at(bytes + 72, 4) != 0) return 3;
    uint32_t entries = number_at(bytes + 76, 2);
    if (length < 78 + 8 * (size_t)entries) return 3;
    struct record *records = calloc(entries + 1, sizeof *records);
    if (records == NULL) return 5;
    for (uint32_t number = 0; number < entries; number++) {
        const uint8_t *entry = bytes + 78 + 8 * (size_t)number;
        uint32_t begin = number_at(entry, 4);
        uint32_t end = number + 1 < entries ? number_at(entry + 8, 4) : (uint32_t)length;
        if (begin < 78 + 8 * (size_t)entries || end < begin || end > length || end - begin > 65500) return 3;
        records[number] = (struct record){number_at(entry + 5, 3), entry[4], end - begin, malloc(end - begin + 1)};
        if (records[number].bytes == NULL) return 5;
        memcpy(records[number].bytes, bytes + begin, end - begin);
    }
    printf("ok %u records\n", entries);
    return 0;
}
