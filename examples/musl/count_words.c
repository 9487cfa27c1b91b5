/* Writes how many lines, words and bytes its standard input has, as `wc` does. Ends with status 74 where it can't read or
   write.

   A line ends with a new line, and a word is as long as no byte of it is a space, as isspace(3) says. */

#include <ctype.h>
#include <stdio.h>

static char buffer[65536];

int main(void)
{
    unsigned long lines = 0, words = 0, bytes = 0;
    int in_word = 0;
    size_t length;
    while ((length = fread(buffer, 1, sizeof buffer, stdin)) != 0) {
        bytes += length;
        for (size_t place = 0; place < length; place++) {
            int is_word = !isspace((unsigned char)buffer[place]);
            words += is_word && !in_word;
            in_word = is_word;
            lines += buffer[place] == '\n';
        }
    }
    if (ferror(stdin)) {
        perror("count_words: standard input");
        return 74;
    }
    printf("%lu %lu %lu\n", lines, words, bytes);
    if (fclose(stdout) != 0) {
        perror("count_words: standard output");
        return 74;
    }
    return 0;
}
