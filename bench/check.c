/*
 * Says how many seconds of processor time it takes to check the files of a script on standard input as `uucpair play`
 * has to: cut into fields of SIZE bytes, each of them checked at the end that sends it and at the end that finds it.
 *
 *   check SIZE
 */
#include <stdio.h>
#include <stdlib.h>
#include <string.h>
#include <time.h>

enum { ROUNDS = 100, LINE_MAX_BYTES = 65537, FILES_MAX = 1 << 24 };

static unsigned char bytes[FILES_MAX];

/* The check of a field: two sums over its bytes, in sixteen bits. */
static unsigned check(const unsigned char *field, size_t size)
{
    unsigned first = 0xffff, second = 0;

    for (size_t left = size; left > 0; left--) {
        unsigned byte = *field++;

        first = ((first << 1 | first >> 15) + byte) & 0xffff;
        second = (second + (first ^ left)) & 0xffff;
        if (byte == 0 || first < byte)
            first ^= second;
    }
    return first;
}

/* The bytes of all files, one behind the other, with zeros behind each up to a whole field. */
static size_t read_files(size_t size)
{
    static char line[LINE_MAX_BYTES + 1];
    size_t count = 0;

    while (fgets(line, sizeof line, stdin) != NULL) {
        const char *digits = strrchr(line, ' ');

        if (strncmp(line, "file ", 5) != 0)
            continue;
        for (digits++; sscanf(digits, "%2hhx", &bytes[count]) == 1; digits += 2)
            count++;
        count = (count + size - 1) / size * size;
    }
    return count;
}

int main(int words, char **word)
{
    size_t size = words == 2 ? strtoul(word[1], NULL, 10) : 0, count;
    unsigned sum = 0;
    clock_t begin;

    if (size == 0) {
        fprintf(stderr, "check SIZE\n");
        return 2;
    }
    count = read_files(size);
    begin = clock();
    for (int round = 0; round < 2 * ROUNDS; round++)
        for (size_t at = 0; at < count; at += size)
            sum = sum * 31 + check(bytes + at, size);
    printf("%.4f %u\n", (double)(clock() - begin) / CLOCKS_PER_SEC / ROUNDS, sum);
    return 0;
}
