/* Answers the bytes of a desktop as the handheld of a folder does, as `hotsync device HANDHELD --in=SENT --out=SAID`:
   device HANDHELD SENT SAID
   All files of the folder HANDHELD make a handheld in memory. It hears the bytes of SENT, seven at a time, as a serial line
   brings them. What it says goes into SAID, and its files back into the folder. Nothing makes these writes whole: work on a
   copy.
   cc device.c $(pkg-config --cflags --libs hotsync) */
#define _POSIX_C_SOURCE 200809L
#include <dirent.h>
#include <hotsync.h>
#include <stdio.h>
#include <stdlib.h>
#include <string.h>
#include <unistd.h>

/* Bytes, and room for more. */
struct bytes {
    uint8_t *at;
    size_t length, room;
};

static void stop(const char *why)
{
    fprintf(stderr, "device: %s\n", why);
    exit(1);
}

static void make_room(struct bytes *bytes, size_t wanted)
{
    if (bytes->at != NULL && wanted <= bytes->room)
        return;
    bytes->room = 2 * wanted + 64;
    bytes->at = realloc(bytes->at, bytes->room);
    if (bytes->at == NULL)
        stop("no memory");
}

static void append(struct bytes *bytes, const void *more, size_t count)
{
    make_room(bytes, bytes->length + count);
    memcpy(bytes->at + bytes->length, more, count);
    bytes->length += count;
}

/* A string of a list of files: its length in eight bytes, the highest first, and its bytes. */
static void append_string(struct bytes *list, const void *string, size_t count)
{
    uint8_t length[8];
    for (int place = 0; place < 8; place++)
        length[place] = (uint8_t)((uint64_t)count >> 8 * (7 - place));
    append(list, length, 8);
    append(list, string, count);
}

static const uint8_t *next_string(const uint8_t *list, size_t *count)
{
    *count = 0;
    for (int place = 0; place < 8; place++)
        *count = *count << 8 | list[place];
    return list + 8;
}

static struct bytes file_in(const char *path)
{
    struct bytes file = {NULL, 0, 0};
    FILE *stream = fopen(path, "rb");
    if (stream == NULL)
        stop(path);
    for (size_t count = 1; count > 0; file.length += count) {
        make_room(&file, file.length + 4096);
        count = fread(file.at + file.length, 1, 4096, stream);
    }
    fclose(stream);
    return file;
}

static void write_file(const char *path, const uint8_t *bytes, size_t count)
{
    FILE *stream = fopen(path, "wb");
    if (stream == NULL || fwrite(bytes, 1, count, stream) != count || fclose(stream) != 0)
        stop(path);
}

/* The list of all files of a folder. With `gone` they are removed. */
static struct bytes files_in(const char *folder, int gone)
{
    struct bytes list = {NULL, 0, 0};
    char path[1000];
    DIR *names = opendir(folder);
    if (names == NULL)
        stop(folder);
    for (struct dirent *entry; (entry = readdir(names)) != NULL;) {
        if (strcmp(entry->d_name, ".") == 0 || strcmp(entry->d_name, "..") == 0)
            continue;
        snprintf(path, sizeof path, "%s/%s", folder, entry->d_name);
        struct bytes file = file_in(path);
        append_string(&list, entry->d_name, strlen(entry->d_name));
        append_string(&list, file.at, file.length);
        free(file.at);
        if (gone)
            unlink(path);
    }
    closedir(names);
    make_room(&list, 1);
    return list;
}

static void write_files(const char *folder, const struct bytes *list)
{
    char path[1000];
    size_t name_length, length;
    for (const uint8_t *at = list->at; at < list->at + list->length;) {
        const uint8_t *name = next_string(at, &name_length);
        const uint8_t *file = next_string(name + name_length, &length);
        snprintf(path, sizeof path, "%s/%.*s", folder, (int)name_length, (const char *)name);
        write_file(path, file, length);
        at = file + length;
    }
}

/* Makes a call again until there is room for the state and for what is said, and puts that behind what was said before. */
static uint32_t grown(struct bytes *state, const uint8_t *bytes, size_t count, int begins, struct bytes *said)
{
    struct hs_told told = {0, 0};
    for (;;) {
        make_room(state, state->length + 1);
        make_room(said, said->length + 1);
        uint8_t *room = said->at + said->length;
        size_t left = said->room - said->length;
        int64_t length = begins ? hs_device_new(bytes, count, state->at, state->room, room, left, &told)
                                : hs_device_take(state->at, state->room, state->length, bytes, count, room, left, &told);
        if (length < 0) {
            fprintf(stderr, "device: answer %lld\n", (long long)length);
            exit(1);
        }
        if ((size_t)length <= state->room && told.said <= left) {
            state->length = (size_t)length;
            said->length += (size_t)told.said;
            return told.phase;
        }
        make_room(state, (size_t)length);
        make_room(said, said->length + (size_t)told.said);
    }
}

int main(int count, char **words)
{
    if (count != 4) {
        fprintf(stderr, "usage: device HANDHELD SENT SAID\n");
        return 2;
    }
    struct bytes list = files_in(words[1], 0), sent = file_in(words[2]);
    struct bytes state = {NULL, 0, 0}, said = {NULL, 0, 0}, after = {NULL, 0, 0};
    uint32_t phase = grown(&state, list.at, list.length, 1, &said);
    for (size_t place = 0; place < sent.length && phase == HS_GOES_ON; place += 7) {
        size_t left = sent.length - place;
        phase = grown(&state, sent.at + place, left < 7 ? left : 7, 0, &said);
    }
    /* Without room, to hear how much is wanted; then with it. */
    make_room(&after, 1);
    after.length = (size_t)hs_device_files(state.at, state.length, after.at, 0);
    make_room(&after, after.length);
    if (hs_device_files(state.at, state.length, after.at, after.room) != (int64_t)after.length)
        stop("no files");
    free(files_in(words[1], 1).at);
    write_files(words[1], &after);
    write_file(words[3], said.at, said.length);
    free(list.at), free(sent.at), free(state.at), free(said.at), free(after.at);
    printf("%s\n", phase == HS_ENDED ? "ended" : phase == HS_GOES_ON ? "stream ended" : "over");
    return phase == HS_ENDED ? 0 : 1;
}
