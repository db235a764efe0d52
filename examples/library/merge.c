/* Merges the files of one database, as `hotsync run HANDHELD DESKTOP --slow` does:
   merge HANDHELD DESKTOP NAME SECONDS [agree]
   where SECONDS since 1904 is the date of the session. NAME.pdb of both folders, NAME.base and NAME.arc are read as far as
   they are there, and written. Nothing makes these writes whole: work on a copy.
   cc merge.c $(pkg-config --cflags --libs hotsync) */
#include <hotsync.h>
#include <stdio.h>
#include <stdlib.h>
#include <string.h>

struct file {
    char name[1000];
    uint8_t *bytes;
    size_t length;
};

/* The bytes of a file; none where it isn't there. */
static struct file file_in(const char *folder, const char *name, const char *ending)
{
    struct file file = {.length = 0};
    snprintf(file.name, sizeof file.name, "%s/%s.%s", folder, name, ending);
    FILE *stream = fopen(file.name, "rb");
    long size = 0;
    if (stream != NULL && fseek(stream, 0, SEEK_END) == 0)
        size = ftell(stream);
    file.bytes = malloc((size_t)(size > 0 ? size : 1));
    if (stream != NULL && size > 0 && file.bytes != NULL) {
        rewind(stream);
        file.length = fread(file.bytes, 1, (size_t)size, stream);
    }
    if (stream != NULL)
        fclose(stream);
    return file;
}

/* Writes what stands in the room from one place to another; nothing where a side has no such file. */
static int write_part(const char *name, const uint8_t *room, uint64_t begin, uint64_t end)
{
    if (begin == end)
        return 0;
    FILE *stream = fopen(name, "wb");
    if (stream == NULL)
        return 1;
    size_t count = fwrite(room + begin, 1, (size_t)(end - begin), stream);
    return fclose(stream) != 0 || count != end - begin;
}

int main(int count, char **words)
{
    if (count < 5 || count > 6) {
        fprintf(stderr, "usage: merge HANDHELD DESKTOP NAME SECONDS [agree]\n");
        return 2;
    }
    struct file handheld = file_in(words[1], words[3], "pdb"), rows = file_in(words[2], words[3], "pdb");
    struct file base = file_in(words[2], words[3], "base"), archive = file_in(words[2], words[3], "arc");
    struct hs_how how = {HS_SYNC, count == 6, (uint32_t)strtoul(words[4], NULL, 10)};
    struct hs_ends ends = {0, 0, 0, 0};
    uint8_t *room = NULL, none[1] = {0};
    int64_t wanted = 0;
    if (handheld.bytes == NULL || rows.bytes == NULL || base.bytes == NULL || archive.bytes == NULL)
        return 2;
    /* Without room, to hear how much is wanted; then with it. */
    wanted = hs_merge(handheld.bytes, handheld.length, rows.bytes, rows.length, base.bytes, base.length, archive.bytes,
                      archive.length, &how, none, 0, &ends);
    if (wanted > 0 && (room = malloc((size_t)wanted)) != NULL)
        wanted = hs_merge(handheld.bytes, handheld.length, rows.bytes, rows.length, base.bytes, base.length, archive.bytes,
                          archive.length, &how, room, (size_t)wanted, &ends);
    int failed = wanted < 0 || (wanted > 0 && room == NULL);
    if (wanted < 0)
        fprintf(stderr, "not merged: %lld\n", (long long)wanted);
    else if (room != NULL)
        failed = write_part(handheld.name, room, 0, ends.handheld) || write_part(rows.name, room, ends.handheld, ends.rows)
            || write_part(base.name, room, ends.rows, ends.base) || write_part(archive.name, room, ends.base, ends.archive);
    free(room);
    free(archive.bytes), free(base.bytes), free(rows.bytes), free(handheld.bytes);
    return failed;
}
