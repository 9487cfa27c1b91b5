/* copy_tree FROM TO: makes the folder TO with a copy of all that is in the folder FROM, in TO/copy, and a report of it,
   TO/report. TO must not be there yet, and not be in FROM.

   The report has a line for each entry, with what it is, how many bytes it has, and its path in FROM; entries of a folder
   are in the order of their names' bytes, each folder before what is in it. The last line of all has the sums.

   Ends with status 64 for wrong words, and with 74 where something can't be read or written; a line says what. */

#include <dirent.h>
#include <stdio.h>
#include <stdlib.h>
#include <string.h>
#include <sys/stat.h>

static FILE *report;
static unsigned long folders, files, bytes;

static void fail(const char *path)
{
    fprintf(stderr, "copy_tree: ");
    perror(path);
    exit(74);
}

/* The path of a name in a folder, in memory of its own. */
static char *join(const char *folder, const char *name)
{
    char *path = malloc(strlen(folder) + strlen(name) + 2);
    if (path == NULL)
        fail(folder);
    sprintf(path, "%s/%s", folder, name);
    return path;
}

static FILE *open_file(const char *path, const char *mode)
{
    FILE *file = fopen(path, mode);
    if (file == NULL)
        fail(path);
    return file;
}

static void make_folder(const char *path)
{
    if (mkdir(path, 0777) != 0)
        fail(path);
}

static void copy_file(const char *from, const char *to)
{
    static char buffer[65536];
    FILE *source = open_file(from, "rb");
    FILE *target = open_file(to, "wb");
    size_t length;
    while ((length = fread(buffer, 1, sizeof buffer, source)) != 0)
        if (fwrite(buffer, 1, length, target) != length)
            fail(to);
    if (ferror(source) || fclose(source) != 0)
        fail(from);
    if (fclose(target) != 0)
        fail(to);
}

static int by_bytes(const void *left, const void *right)
{
    return strcmp(*(char *const *)left, *(char *const *)right);
}

/* The names in a folder but `.` and `..`, in order, each and the list in memory of its own. */
static char **names_in(const char *path, size_t *count)
{
    char **names = NULL;
    struct dirent *entry;
    DIR *folder = opendir(path);
    if (folder == NULL)
        fail(path);
    *count = 0;
    while ((entry = readdir(folder)) != NULL) {
        if (strcmp(entry->d_name, ".") == 0 || strcmp(entry->d_name, "..") == 0)
            continue;
        names = realloc(names, (*count + 1) * sizeof *names);
        if (names == NULL || (names[*count] = strdup(entry->d_name)) == NULL)
            fail(path);
        ++*count;
    }
    if (closedir(folder) != 0)
        fail(path);
    if (*count > 1)
        qsort(names, *count, sizeof *names, by_bytes);
    return names;
}

/* `shown` is the path in FROM, with a `/` behind it where it isn't empty. */
static void copy_folder(const char *from, const char *to, const char *shown)
{
    size_t count;
    char **names = names_in(from, &count);
    for (size_t place = 0; place < count; place++) {
        char *source = join(from, names[place]);
        char *target = join(to, names[place]);
        struct stat status;
        if (stat(source, &status) != 0)
            fail(source);
        if (S_ISDIR(status.st_mode)) {
            char *inside = malloc(strlen(shown) + strlen(names[place]) + 2);
            if (inside == NULL)
                fail(source);
            sprintf(inside, "%s%s/", shown, names[place]);
            fprintf(report, "folder - %s\n", inside);
            folders++;
            make_folder(target);
            copy_folder(source, target, inside);
            free(inside);
        } else {
            fprintf(report, "file %lld %s%s\n", (long long)status.st_size, shown, names[place]);
            files++;
            bytes += status.st_size;
            copy_file(source, target);
        }
        free(source);
        free(target);
        free(names[place]);
    }
    free(names);
}

int main(int count, char **words)
{
    if (count != 3) {
        fprintf(stderr, "usage: copy_tree FROM TO\n");
        return 64;
    }
    make_folder(words[2]);
    char *place = join(words[2], "report");
    char *copy = join(words[2], "copy");
    report = open_file(place, "w");
    make_folder(copy);
    copy_folder(words[1], copy, "");
    fprintf(report, "%lu folders, %lu files, %lu bytes\n", folders, files, bytes);
    if (ferror(report) || fclose(report) != 0)
        fail(place);
    printf("%lu folders and %lu files copied\n", folders, files);
    free(place);
    free(copy);
    return 0;
}
