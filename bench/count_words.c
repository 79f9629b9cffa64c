/* Reads a whole file into memory and prints how many words it has: runs of bytes other than space, tab and LF. It checks
   nothing: it does what no reader of words can leave out. */
#include <fcntl.h>
#include <stdbool.h>
#include <stdio.h>
#include <stdlib.h>
#include <sys/stat.h>
#include <unistd.h>

int main(int argc, char **argv) {
    struct stat about;
    int file = argc == 2 ? open(argv[1], O_RDONLY) : -1;
    if (file < 0 || fstat(file, &about) != 0)
        return 1;
    size_t length = about.st_size, have = 0, words = 0;
    unsigned char *bytes = malloc(length + 1);
    if (!bytes)
        return 7;
    for (ssize_t n; (n = read(file, bytes + have, length - have)) > 0;)
        have += n;
    bool in_word = false;
    for (size_t i = 0; i < have; i++) {
        if (bytes[i] == ' ' || bytes[i] == '\t' || bytes[i] == '\n') {
            in_word = false;
        } else if (!in_word) {
            in_word = true;
            words++;
        }
    }
    printf("%zu\n", words);
    free(bytes);
}
