/* A plain copier of memos, to compare with: it reads the whole file and prints, for each record, a line with its id and its
 * bytes before the first zero byte. It tests nothing and translates nothing. */
#include <stdint.h>
#include <stdio.h>
#include <stdlib.h>
#include <string.h>

static uint32_t number_at(const uint8_t *bytes, int width) {
    uint32_t number = 0;
    for (int place = 0; place < width; place++) number = number << 8 | bytes[place];
    return number;
}

int main(int count, char **words) {
    if (count < 2) return 2;
    FILE *file = fopen(words[1], "rb");
    if (file == NULL) return 4;
    size_t length = 0, room = 1 << 16;
    uint8_t *bytes = malloc(room);
    for (size_t taken; bytes != NULL && (taken = fread(bytes + length, 1, room - length, file)) > 0;) {
        length += taken;
        if (length == room) bytes = realloc(bytes, room *= 2);
    }
    fclose(file);
    if (bytes == NULL || length < 78) return 5;
    uint32_t entries = number_at(bytes + 76, 2);
    for (uint32_t number = 0; number < entries; number++) {
        const uint8_t *entry = bytes + 78 + 8 * (size_t)number;
        uint32_t begin = number_at(entry, 4);
        uint32_t end = number + 1 < entries ? number_at(entry + 8, 4) : (uint32_t)length;
        const uint8_t *zero = memchr(bytes + begin, 0, end - begin);
        printf("--- %06x\n", number_at(entry + 5, 3));
        fwrite(bytes + begin, 1, (zero ? zero : bytes + end) - (bytes + begin), stdout);
        putchar('\n');
    }
    return 0;
}
