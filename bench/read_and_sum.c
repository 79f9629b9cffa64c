/* Reads the whole file named in argv[1] into memory, and prints the sum of its little-endian 32-bit words. */
#include <endian.h>
#include <fcntl.h>
#include <stdint.h>
#include <stdio.h>
#include <stdlib.h>
#include <string.h>
#include <sys/stat.h>
#include <unistd.h>

int main(int argc, char **argv) {
    struct stat about;
    int file = argc == 2 ? open(argv[1], O_RDONLY) : -1;
    if (file < 0 || fstat(file, &about) != 0) {
        return 1;
    }
    size_t length = (size_t)about.st_size;
    unsigned char *bytes = malloc(length);
    for (size_t taken = 0; taken < length;) {
        ssize_t more = bytes ? read(file, bytes + taken, length - taken) : -1;
        if (more <= 0) {
            return 1;
        }
        taken += (size_t)more;
    }
    uint32_t sum = 0;
    for (size_t at = 0; at + 4 <= length; at += 4) {
        uint32_t word;
        memcpy(&word, bytes + at, 4);
        sum += le32toh(word);
    }
    printf("0x%08x\n", sum);
    return 0;
}
