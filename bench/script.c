/*
 * Writes a script of `uucpair play` for a measurement to standard output, the same one each time:
 *
 *   script BYTES WINDOW SIZE EVERY
 *
 * The caller sends so many bytes, in 64 files, since a line of a script holds no more than 32,767. Both ends announce
 * this window and size. EVERY is 0 for a clean line; else of the pieces that come to an end each of that number is lost,
 * and then nothing comes to either end for some time. With WINDOW 0 the ends announce 7 and nothing comes over the line,
 * so that all there is to do is to read the script.
 */
#include <stdio.h>
#include <stdlib.h>

enum { FILES = 64, ALL = 1000000000 };

static unsigned long long state = 0x2545f4914f6cdd1dULL;

static unsigned random_byte(void)
{
    state ^= state << 13;
    state ^= state >> 7;
    state ^= state << 17;
    return (unsigned)(state >> 16) & 0xff;
}

/* A file of its own name, and the job that sends it. */
static void put_file(unsigned number, unsigned long bytes)
{
    printf("file caller x%u 0644 %s", number, bytes == 0 ? "-" : "");
    while (bytes-- > 0)
        printf("%02x", random_byte());
    printf("\nsend caller x%u x%u u\n", number, number);
}

/* All that is on the line comes to both ends, but each piece of the number `every` is lost. */
static void put_rounds(unsigned long rounds, unsigned long every)
{
    unsigned long piece = 0;

    if (every == 0) {
        printf("flow %lu\n", rounds);
        return;
    }
    while (rounds-- > 0) {
        int is_lost = 0;

        for (int called = 1; called >= 0; called--) {
            int now = ++piece % every == 0;

            printf("%s %s %d\n", now ? "drop" : "pass", called ? "called" : "caller", ALL);
            is_lost |= now;
        }
        if (is_lost)
            printf("timeout caller\ntimeout called\n");
    }
}

int main(int count, char **words)
{
    unsigned long bytes, window, size, every, rounds;

    if (count != 5) {
        fprintf(stderr, "script BYTES WINDOW SIZE EVERY\n");
        return 2;
    }
    bytes = strtoul(words[1], NULL, 10);
    window = strtoul(words[2], NULL, 10);
    size = strtoul(words[3], NULL, 10);
    every = strtoul(words[4], NULL, 10);
    printf("caller a %lu %lu\ncalled b %lu %lu\n", window ? window : 7, size, window ? window : 7, size);
    for (unsigned i = 0; i < FILES; i++)
        put_file(i, bytes / FILES);
    if (window == 0)
        return 0;
    /* for a file: its bytes, and the talk before and behind it; a third more where pieces are lost */
    rounds = FILES * (bytes / FILES / size / window + 8) + 20;
    put_rounds(every ? rounds + rounds / 3 : rounds, every);
    return 0;
}
