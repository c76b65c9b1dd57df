/*
 * Lists the 'g' packets on standard input, as `uucpair scan` does. It is written from the format alone and
 * shares no code with the program, so that two equal listings say something.
 *
 * A packet begins with six bytes: 0x10; K; the checksum, low byte first; the control byte; the exclusive or
 * of the four bytes before it. K is 9 for a control packet, which ends there; K from 1 to 8 is a data packet,
 * and a field of 2^(K+4) bytes follows. What is found at the front of the bytes not yet read is one of:
 *
 *   a packet       its line is printed, its bytes are passed over;
 *   a bad packet   a data packet with right K, exclusive or and kind, and a whole field, whose checksum or
 *                  whose length is wrong: BAD is printed, one byte is passed over;
 *   a start        too few bytes to tell: they wait, and the listing ends;
 *   noise          anything else: one byte is passed over.
 */
#include <stdio.h>
#include <stdlib.h>
#include <unistd.h>

enum { START = 0x10, HEADER_SIZE = 6, CONTROL_K = 9 };

enum part { PACKET, BAD, WAITS, NOISE };

struct packet {
    size_t length;    /* all its bytes */
    size_t size;      /* the bytes of its field, 0 in a control packet */
    size_t valid;     /* those of them that are the message */
    unsigned control; /* the control byte */
};

static void fail(const char *what)
{
    perror(what);
    exit(1);
}

/* All of standard input. */
static unsigned char *read_whole(size_t *count)
{
    size_t room = 1 << 20;
    unsigned char *bytes = malloc(room);
    ssize_t got;

    *count = 0;
    while (bytes != NULL && (got = read(STDIN_FILENO, bytes + *count, room - *count)) != 0) {
        if (got < 0)
            fail("read");
        *count += (size_t)got;
        if (*count == room)
            bytes = realloc(bytes, room *= 2);
    }
    if (bytes == NULL)
        fail("memory");
    return bytes;
}

/* The check of a field: two sums over its bytes, in sixteen bits. */
static unsigned check(const unsigned char *field, size_t size)
{
    unsigned first = 0xffff, second = 0;

    for (size_t left = size; left > 0; left--) {
        unsigned byte = *field++;

        first = ((first << 1 | first >> 15) + byte) & 0xffff;
        second = (second + (first ^ left)) & 0xffff;
        if (byte == 0 || first < byte)
            first ^= second;
    }
    return first;
}

/* The valid bytes of a short field, whose first byte or two say how many are missing; -1 where they lie. */
static long short_length(const unsigned char *field, long size)
{
    long front = field[0] < 128 ? 1 : 2;
    long missing = front == 1 ? field[0] : field[0] % 128 + 128L * field[1];

    return missing < front || missing > size ? -1 : size - missing;
}

/* What stands at the front of the bytes. */
static enum part look(const unsigned char *bytes, size_t count, struct packet *packet)
{
    unsigned k, control, checksum;
    long valid;

    if (count > 0 && bytes[0] != START)
        return NOISE;
    if (count < HEADER_SIZE)
        return WAITS;
    k = bytes[1];
    checksum = bytes[2] | (unsigned)bytes[3] << 8;
    control = bytes[4];
    if (k < 1 || k > CONTROL_K || bytes[5] != (bytes[1] ^ bytes[2] ^ bytes[3] ^ bytes[4]))
        return NOISE;

    packet->control = control;
    if (k == CONTROL_K) {
        packet->length = HEADER_SIZE;
        packet->size = packet->valid = 0;
        return control >= 8 && control < 64 && checksum == 0xaaaa - control ? PACKET : NOISE;
    }

    if (control < 128)
        return NOISE;
    packet->size = (size_t)16 << k;
    packet->length = HEADER_SIZE + packet->size;
    if (count < packet->length)
        return WAITS;
    bytes += HEADER_SIZE;
    if (checksum != ((0xaaaa - (check(bytes, packet->size) ^ control)) & 0xffff))
        return BAD;
    valid = control < 192 ? (long)packet->size : short_length(bytes, (long)packet->size);
    if (valid < 0)
        return BAD;
    packet->valid = (size_t)valid;
    return PACKET;
}

static void print_packet(const struct packet *packet)
{
    unsigned x = packet->control / 8 % 8, y = packet->control % 8;

    if (packet->size > 0) {
        printf("DATA %u ACK %u SIZE %zu VALID %zu\n", x, y, packet->size, packet->valid);
        return;
    }
    switch (x) {
    case 1: puts("CLOSE"); break;
    case 2: printf("RJ %u\n", y); break;
    case 3: printf("SRJ %u\n", y); break;
    case 4: printf("RR %u\n", y); break;
    case 5: printf("INITC %u\n", y); break;
    case 6: printf("INITB %u\n", 32U << y); break;
    case 7: printf("INITA %u\n", y); break;
    }
}

int main(void)
{
    size_t count, place = 0;
    unsigned char *bytes = read_whole(&count);
    struct packet packet;

    for (;;) {
        switch (look(bytes + place, count - place, &packet)) {
        case PACKET:
            print_packet(&packet);
            place += packet.length;
            continue;
        case BAD:
            puts("BAD");
            place += 1;
            continue;
        case NOISE:
            place += 1;
            continue;
        case WAITS:
            break;
        }
        break;
    }
    printf("REST %zu\n", count - place);
    if (fflush(stdout) != 0)
        fail("write");
    free(bytes);
    return 0;
}
