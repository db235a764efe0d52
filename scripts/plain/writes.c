/* A plain writer of files, to compare with: it replaces a file so often as a handheld's folder replaces one, each time with
 * more of the same bytes. The words are the file whose bytes are taken, the file that is replaced, how often, and by how many
 * bytes it grows each time: the last time all of the bytes are written. Each replacement is whole on the disk before the next. */
#include <fcntl.h>
#include <libgen.h>
#include <stdio.h>
#include <stdlib.h>
#include <string.h>
#include <sys/stat.h>
#include <unistd.h>

/* All the bytes of a file. */
static char *read_file(const char *path, size_t *length) {
    struct stat found;
    int file = open(path, O_RDONLY);
    if (file < 0 || fstat(file, &found) != 0) return NULL;
    *length = found.st_size;
    char *bytes = malloc(*length + 1);
    if (bytes == NULL || read(file, bytes, *length) != (ssize_t)*length) return NULL;
    close(file);
    return bytes;
}

/* A new file of these bytes, which takes the place of the old one and its permissions once it is on the disk. */
static int replace(const char *folder, const char *temporary, const char *path, const char *bytes, size_t length) {
    struct stat old;
    mode_t mode = stat(path, &old) == 0 ? old.st_mode & 0777 : 0644;
    unlink(temporary);
    int file = open(temporary, O_WRONLY | O_CREAT | O_EXCL, 0600);
    if (file < 0 || write(file, bytes, length) != (ssize_t)length) return 0;
    if (fchmod(file, mode) != 0 || fsync(file) != 0 || close(file) != 0) return 0;
    if (rename(temporary, path) != 0) return 0;
    int names = open(folder, O_RDONLY);
    return names >= 0 && fsync(names) == 0 && close(names) == 0;
}

int main(int count, char **words) {
    if (count < 5) return 2;
    size_t length, times = strtoul(words[3], NULL, 10), step = strtoul(words[4], NULL, 10);
    char *bytes = read_file(words[1], &length);
    if (bytes == NULL || times == 0 || step * (times - 1) > length) return 4;
    char *copy = strdup(words[2]), temporary[4096];
    const char *folder = copy == NULL ? NULL : dirname(copy);
    if (folder == NULL || snprintf(temporary, sizeof temporary, "%s/plain.tmp", folder) >= (int)sizeof temporary) return 5;
    for (size_t turn = 1; turn <= times; turn++)
        if (!replace(folder, temporary, words[2], bytes, length - step * (times - turn))) return 4;
    printf("replaced %zu times\n", times);
    return 0;
}
