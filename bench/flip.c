/* Turns each bit of its input, one at a time, as many times over as its word says: the plain program that the runner is measured against. */
#include <stdint.h>
#include <stdio.h>
#include <stdlib.h>

enum { PIECE = 4096 };

struct reader {
    uint8_t piece[PIECE];
    size_t at, filled;
    unsigned byte, count;
};

struct writer {
    uint8_t piece[PIECE];
    size_t filled;
    unsigned byte, count;
};

static struct reader in;
static struct writer out;

/* The next bit of the input, the least significant of a byte first, or -1 at its end. */
static int next_bit(void)
{
    if (in.count == 0) {
        if (in.at == in.filled) {
            in.at = 0;
            in.filled = fread(in.piece, 1, PIECE, stdin);
            if (in.filled == 0)
                return -1;
        }
        in.byte = in.piece[in.at++];
        in.count = 8;
    }
    int bit = in.byte & 1;
    in.byte >>= 1;
    in.count--;
    return bit;
}

static void put_piece(void)
{
    if (fwrite(out.piece, 1, out.filled, stdout) != out.filled)
        exit(1);
    out.filled = 0;
}

static void push_bit(int bit)
{
    out.byte |= (unsigned)bit << out.count;
    if (++out.count < 8)
        return;
    out.piece[out.filled++] = (uint8_t)out.byte;
    out.byte = 0;
    out.count = 0;
    if (out.filled == PIECE)
        put_piece();
}

int main(int argc, char **argv)
{
    int stages = argc > 1 ? atoi(argv[1]) : 1;
    for (int bit = next_bit(); bit >= 0; bit = next_bit()) {
        for (int stage = 0; stage < stages; stage++)
            bit ^= 1;
        push_bit(bit);
    }
    put_piece();
    return 0;
}
