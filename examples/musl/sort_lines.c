/* sort_lines FROM TO: writes the lines of the file FROM into the file TO, in the order of their bytes, as `sort` does in the
   locale C. A last line without its end gets one.

   rvuser's greatest budget is 33,554,432 steps: 100,000 words of up to 8 letters need some 23 million here, and 340 million
   by getline, qsort and fputs alone. Ends with status 64 for wrong words, with 65 where FROM has a byte that is zero, and
   with 74 where something can't be read or written, or there is no memory; a line says what. */

#include <stdio.h>
#include <stdlib.h>
#include <string.h>

enum { FEW = 30, DEEPEST = 8 };

static void fail(const char *what)
{
    fprintf(stderr, "sort_lines: ");
    perror(what);
    exit(74);
}

static void *memory_for(size_t count, size_t size)
{
    void *memory = malloc(count * size);
    if (memory == NULL)
        fail("memory");
    return memory;
}

/* The bytes of a file, in memory that has room for one more. */
static char *bytes_of(const char *path, size_t *length)
{
    FILE *file = fopen(path, "rb");
    if (file == NULL || fseek(file, 0, SEEK_END) != 0)
        fail(path);
    long end = ftell(file);
    if (end < 0 || fseek(file, 0, SEEK_SET) != 0)
        fail(path);
    char *bytes = memory_for(end + 1, 1);
    *length = fread(bytes, 1, end, file);
    if (ferror(file) || fclose(file) != 0)
        fail(path);
    return bytes;
}

/* Puts a zero at the end of each line, and gives the lines and how many they are. */
static char **split(char *bytes, size_t length, size_t *count)
{
    size_t room = 1024;
    char **lines = memory_for(room, sizeof *lines);
    *count = 0;
    for (char *place = bytes; place != bytes + length; place++) {
        if (*count == room) {
            room *= 2;
            lines = realloc(lines, room * sizeof *lines);
            if (lines == NULL)
                fail("memory");
        }
        lines[(*count)++] = place;
        while (*place != '\n')
            place++;
        *place = 0;
    }
    return lines;
}

static int by_bytes(const void *left, const void *right)
{
    return strcmp(*(char *const *)left, *(char *const *)right);
}

/* Sorts a few lines, whose first bytes are the same: each goes to its place among those before it. */
static void sort_few(char **lines, size_t count, size_t same)
{
    for (size_t end = 1; end < count; end++) {
        char *line = lines[end];
        size_t place = end;
        for (; place > 0 && strcmp(lines[place - 1] + same, line + same) > 0; place--)
            lines[place] = lines[place - 1];
        lines[place] = line;
    }
}

/* Sorts lines, whose first bytes are the same: by the next byte, and then those that have that byte in common. `room` is
   for as many lines. */
static void sort(char **lines, size_t count, size_t same, char **room)
{
    if (count <= FEW) {
        sort_few(lines, count, same);
        return;
    }
    if (same == DEEPEST) {
        qsort(lines, count, sizeof *lines, by_bytes);
        return;
    }
    size_t ends[256] = { 0 }, sum = 0;
    for (size_t place = 0; place < count; place++)
        ends[(unsigned char)lines[place][same]]++;
    for (int byte = 0; byte < 256; byte++) {
        size_t begin = sum;
        sum += ends[byte];
        ends[byte] = begin;
    }
    for (size_t place = 0; place < count; place++)
        room[ends[(unsigned char)lines[place][same]]++] = lines[place];
    memcpy(lines, room, count * sizeof *lines);
    for (int byte = 1; byte < 256; byte++)
        if (ends[byte] - ends[byte - 1] > 1)
            sort(lines + ends[byte - 1], ends[byte] - ends[byte - 1], same + 1, room);
}

/* Writes lines to a file; `room` is for all their bytes. */
static void write_lines(const char *path, char **lines, size_t count, char *room)
{
    char *end = room;
    for (size_t place = 0; place < count; place++) {
        for (const char *text = lines[place]; *text != 0; text++)
            *end++ = *text;
        *end++ = '\n';
    }
    FILE *file = fopen(path, "wb");
    if (file == NULL)
        fail(path);
    if (fwrite(room, 1, end - room, file) != (size_t)(end - room) || fclose(file) != 0)
        fail(path);
}

int main(int words, char **word)
{
    if (words != 3) {
        fprintf(stderr, "usage: sort_lines FROM TO\n");
        return 64;
    }
    size_t length, count;
    char *bytes = bytes_of(word[1], &length);
    if (memchr(bytes, 0, length) != NULL) {
        fprintf(stderr, "sort_lines: %s: a zero byte\n", word[1]);
        return 65;
    }
    if (length != 0 && bytes[length - 1] != '\n')
        bytes[length++] = '\n';
    char **lines = split(bytes, length, &count);
    sort(lines, count, 0, memory_for(count, sizeof *lines));
    write_lines(word[2], lines, count, memory_for(length, 1));
    printf("%zu lines sorted\n", count);
    return 0;
}
