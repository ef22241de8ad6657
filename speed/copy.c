/* Copies standard input to standard output in pieces of 64 KiB: what reading and writing alone take. */
#include <stdint.h>
#include <unistd.h>

int main(void)
{
    static uint8_t piece[65536];
    ssize_t got;
    while ((got = read(0, piece, sizeof piece)) > 0)
        if (write(1, piece, got) != got)
            return 1;
    return got < 0;
}
