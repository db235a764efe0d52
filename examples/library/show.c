/* Prints what a database's file holds, as `hotsync show` does: show FILE.pdb
   cc show.c $(pkg-config --cflags --libs hotsync) */
#include <hotsync.h>
#include <stdio.h>
#include <stdlib.h>

/* All bytes of a file, and how many they are; a null pointer where it can't be read. */
static uint8_t *read_all(const char *name, size_t *length)
{
    FILE *file = fopen(name, "rb");
    uint8_t *bytes = NULL;
    if (file == NULL)
        return NULL;
    if (fseek(file, 0, SEEK_END) == 0) {
        long size = ftell(file);
        rewind(file);
        if (size >= 0 && (bytes = malloc((size_t)size + 1)) != NULL)
            *length = fread(bytes, 1, (size_t)size, file);
    }
    fclose(file);
    return bytes;
}

int main(int count, char **words)
{
    size_t length = 0;
    uint8_t none[1] = {0};
    uint8_t *file = count == 2 ? read_all(words[1], &length) : NULL;
    if (file == NULL) {
        fprintf(stderr, "usage: show FILE\n");
        return 2;
    }
    /* Without room, to hear how much is wanted; then with it. */
    int64_t wanted = hs_show(file, length, none, 0);
    uint8_t *text = wanted < 0 ? NULL : malloc((size_t)wanted + 1);
    if (text == NULL) {
        uint32_t kind = 0;
        uint64_t place = 0;
        hs_check(file, length, &kind, &place);
        fprintf(stderr, "no database: rule %u at %llu\n", kind, (unsigned long long)place);
        free(file);
        return 1;
    }
    hs_show(file, length, text, (size_t)wanted);
    fwrite(text, 1, (size_t)wanted, stdout);
    free(text);
    free(file);
    return 0;
}
