/* How long hs_merge takes: merges FOLDER TIMES, over Bench.pdb of FOLDER/handheld, and Bench.pdb and Bench.base of FOLDER/desktop
 * as far as they are there. Prints the microseconds of a call, the least of three turns of so many. */
#include <hotsync.h>
#include <stdio.h>
#include <stdlib.h>
#include <time.h>

struct file {
    uint8_t *bytes;
    size_t length;
};

static struct file file_in(const char *folder, const char *name) {
    static char path[1000];
    struct file file = {malloc(1 << 24), 0};
    snprintf(path, sizeof path, "%s/%s", folder, name);
    FILE *stream = fopen(path, "rb");
    if (stream != NULL && file.bytes != NULL) file.length = fread(file.bytes, 1, 1 << 24, stream);
    if (stream != NULL) fclose(stream);
    return file;
}

static double now(void) {
    struct timespec time;
    clock_gettime(CLOCK_MONOTONIC, &time);
    return (double)time.tv_sec * 1e6 + (double)time.tv_nsec / 1e3;
}

int main(int count, char **words) {
    if (count != 3) return 2;
    struct file handheld = file_in(words[1], "handheld/Bench.pdb"), rows = file_in(words[1], "desktop/Bench.pdb");
    struct file base = file_in(words[1], "desktop/Bench.base"), none = {malloc(1), 0};
    struct hs_how how = {HS_SYNC, rows.length > 0, 3082844800};
    struct hs_ends ends;
    static uint8_t room[1 << 26];
    int times = atoi(words[2]);
    double least = 1e18;
    for (int turn = 0; turn < 3; turn++) {
        double begun = now();
        for (int each = 0; each < times; each++) {
            int64_t made = hs_merge(handheld.bytes, handheld.length, rows.bytes, rows.length, base.bytes, base.length,
                                    none.bytes, 0, &how, room, sizeof room, &ends);
            if (made < 0 || (size_t)made > sizeof room) return 1;
        }
        if (now() - begun < least) least = now() - begun;
    }
    printf("%.0f\n", least / times);
    return 0;
}
