/*
 * Writes a stream of 'g' packets for a measurement to standard output, the same one each time:
 *
 *   stream BYTES mixed     packets of every kind and size, with some damage and some noise between them;
 *   stream BYTES control   control packets alone;
 *   stream BYTES worst     as many headers of the largest data packet, with a wrong checksum, as fit.
 *
 * The stream has just BYTES bytes, so that the last packet is cut.
 */
#include <stdio.h>
#include <stdlib.h>
#include <string.h>

typedef unsigned char byte;

enum { START = 0x10, HEADER_SIZE = 6, CONTROL_K = 9, LARGEST_K = 8, PACKET_MAX = 4102 };
enum { LONG_DATA = 0x80, SHORT_DATA = 0xc0 };

static unsigned long long state = 0x2545f4914f6cdd1dULL;
static size_t left; /* the bytes still to be written */

static unsigned long long random_bits(void)
{
    state ^= state << 13;
    state ^= state >> 7;
    state ^= state << 17;
    return state >> 16;
}

/* A number below `end`. */
static unsigned below(unsigned end)
{
    return (unsigned)(random_bits() % end);
}

static void fill(byte *bytes, size_t count)
{
    while (count-- > 0)
        *bytes++ = (byte)random_bits();
}

static void put(const byte *bytes, size_t count)
{
    if (count > left)
        count = left;
    if (count > 0 && fwrite(bytes, 1, count, stdout) != count) {
        perror("write");
        exit(1);
    }
    left -= count;
}

static unsigned field_check(const byte *field, unsigned size)
{
    unsigned short check = 0xffff, mixed = 0;

    for (unsigned i = 0; i < size; i++) {
        check = (unsigned short)(check << 1 | check >> 15);
        check = (unsigned short)(check + field[i]);
        mixed = (unsigned short)(mixed + (check ^ (size - i)));
        if (field[i] == 0 || check < field[i])
            check ^= mixed;
    }
    return check;
}

static void put_exclusive_or(byte *packet)
{
    packet[5] = packet[1] ^ packet[2] ^ packet[3] ^ packet[4];
}

static void put_header(byte *packet, unsigned k, unsigned control, unsigned checked)
{
    unsigned checksum = 0xaaaa - checked;

    packet[0] = START;
    packet[1] = (byte)k;
    packet[2] = (byte)checksum;
    packet[3] = (byte)(checksum >> 8);
    packet[4] = (byte)control;
    put_exclusive_or(packet);
}

/* A control packet: one of seven types and any number. Answers its length, as all that make a packet do. */
static size_t make_control(byte *packet)
{
    unsigned control = 8 * (1 + below(7)) + below(8);

    put_header(packet, CONTROL_K, control, control);
    return HEADER_SIZE;
}

static unsigned field_size(unsigned k)
{
    return 1U << (k + 4);
}

/* Puts the header before a field that is written already. */
static size_t seal_data(byte *packet, unsigned k, unsigned kind)
{
    unsigned control = kind + below(64);

    put_header(packet, k, control, field_check(packet + HEADER_SIZE, field_size(k)) ^ control);
    return HEADER_SIZE + field_size(k);
}

/* The front of a short field, in one byte or in two. */
static void put_missing(byte *field, unsigned missing, int two_bytes)
{
    if (two_bytes) {
        field[0] = (byte)(128 + missing % 128);
        field[1] = (byte)(missing / 128);
    } else {
        field[0] = (byte)missing;
    }
}

static size_t make_long(byte *packet)
{
    unsigned k = 1 + below(LARGEST_K);

    fill(packet + HEADER_SIZE, field_size(k));
    return seal_data(packet, k, LONG_DATA);
}

/* A short data packet with a message of any length, and zeros or any bytes behind it. */
static size_t make_short(byte *packet)
{
    unsigned k = 1 + below(LARGEST_K), size = field_size(k), missing, front;
    int two_bytes = (int)below(2);
    byte *field = packet + HEADER_SIZE;

    if (two_bytes)
        missing = 2 + below(size - 1);
    else
        missing = 1 + below(size < 127 ? size : 127);
    front = two_bytes ? 2 : 1;
    fill(field, size);
    put_missing(field, missing, two_bytes);
    if (below(2) == 0)
        memset(field + front + (size - missing), 0, missing - front);
    return seal_data(packet, k, SHORT_DATA);
}

/* A short data packet that is right but for its length: none are missing, or the front itself, or too many. */
static size_t make_false_length(byte *packet)
{
    unsigned k = 1 + below(LARGEST_K), size = field_size(k);
    byte *field = packet + HEADER_SIZE;

    fill(field, size);
    switch (below(4)) {
    case 0: put_missing(field, 0, 0); break;
    case 1: put_missing(field, below(2), 1); break;
    case 2: put_missing(field, size + 1 + below(1000), 1); break;
    default: put_missing(field, size < 127 ? size + 1 : 0, 0); break;
    }
    return seal_data(packet, k, SHORT_DATA);
}

/* A header whose exclusive or and checksum are right, and K or the control byte one of no packet. */
static size_t make_no_kind(byte *packet)
{
    unsigned k, control;

    switch (below(4)) {
    case 0: k = 0, control = below(256); break;
    case 1: k = 10 + below(246), control = below(256); break;
    case 2: k = CONTROL_K, control = below(2) ? below(8) : 64 + below(192); break;
    default: k = 1 + below(LARGEST_K), control = below(128); break;
    }
    put_header(packet, k, control, control);
    return HEADER_SIZE;
}

/* A data packet with whole packets in its field. Where it is broken, they are found. */
static size_t make_nested(byte *packet)
{
    unsigned k = 4 + below(5), size = field_size(k), used = 0;
    byte *field = packet + HEADER_SIZE;

    fill(field, size);
    while (used + 2 * HEADER_SIZE < size)
        used += (unsigned)make_control(field + used) + below(2 * HEADER_SIZE);
    return seal_data(packet, k, LONG_DATA);
}

static size_t make_packet(byte *packet)
{
    switch (below(16)) {
    case 0: return make_nested(packet);
    case 1: case 2: case 3: case 4: case 5: return make_control(packet);
    case 6: case 7: case 8: case 9: case 10: return make_short(packet);
    default: return make_long(packet);
    }
}

/* Noise, in which the byte that begins a packet is frequent. */
static size_t make_noise(byte *bytes)
{
    size_t count = 1 + below(40);

    fill(bytes, count);
    for (size_t i = 0; i < count; i++)
        if (below(8) == 0)
            bytes[i] = START;
    return count;
}

/* A packet with one thing wrong. */
static size_t make_broken(byte *packet)
{
    size_t length;

    switch (below(8)) {
    case 0: return make_noise(packet);
    case 1: return make_no_kind(packet);
    case 2: return make_false_length(packet);
    case 3: return 1 + below((unsigned)make_packet(packet)); /* cut */
    case 4: /* a byte of the header is another one */
        length = make_packet(packet);
        packet[below(HEADER_SIZE)] ^= (byte)(1 + below(255));
        return length;
    case 5: /* the checksum is another one, and the exclusive or right */
        length = make_packet(packet);
        packet[2 + below(2)] ^= (byte)(1 + below(255));
        put_exclusive_or(packet);
        return length;
    default: /* some byte is another one, mostly of the field */
        length = make_packet(packet);
        packet[below((unsigned)length)] ^= (byte)(1 + below(255));
        return length;
    }
}

static void put_mixed(void)
{
    byte packet[PACKET_MAX];

    while (left > 0)
        put(packet, below(32) == 0 ? make_broken(packet) : make_packet(packet));
}

static void put_controls(void)
{
    byte packet[HEADER_SIZE];

    while (left > 0)
        put(packet, make_control(packet));
}

/*
 * Two headers in eight bytes: the checksum of the first is the start and K of the second. No closer packing
 * is possible, since the control byte of a data packet, 0x80 or more, is neither a start nor a K, and the
 * second header's exclusive or is the start of a third only where its control byte is 8. A checksum is right
 * by chance at one place of 65,536.
 */
static void put_worst(void)
{
    byte pair[8] = { START, LARGEST_K, START, LARGEST_K };

    while (left > 0) {
        pair[4] = (byte)(0x80 + below(128));
        pair[5] = pair[1] ^ pair[2] ^ pair[3] ^ pair[4];
        pair[6] = (byte)(0x80 + below(128));
        pair[7] = pair[3] ^ pair[4] ^ pair[5] ^ pair[6];
        put(pair, sizeof pair);
    }
}

int main(int argc, char **argv)
{
    const char *kind = argc == 3 ? argv[2] : "";
    char *end;

    if (argc == 3)
        left = strtoul(argv[1], &end, 10);
    if (argc == 3 && *end == 0 && strcmp(kind, "mixed") == 0) {
        put_mixed();
    } else if (argc == 3 && *end == 0 && strcmp(kind, "control") == 0) {
        put_controls();
    } else if (argc == 3 && *end == 0 && strcmp(kind, "worst") == 0) {
        put_worst();
    } else {
        fprintf(stderr, "usage: stream BYTES mixed|control|worst\n");
        return 2;
    }
    if (fflush(stdout) != 0) {
        perror("write");
        return 1;
    }
    return 0;
}
