/* A small host: hands document 01's bench frames to the frame check and prints what it answers. */
#include "cendraviu.h"

#include <stdio.h>
#include <string.h>

struct example {
    const char *bench;
    size_t length;
    uint8_t octets[4];
};

static const struct example examples[] = {
    {"1 (empty)", 0, {0}},
    {"2 (85)", 1, {0x85}},
    {"3 (4100)", 2, {0x41, 0x00}},
    {"4 (8510)", 2, {0x85, 0x10}},
    {"5 (4503aabb)", 4, {0x45, 0x03, 0xaa, 0xbb}},
    {"6 (4502aabb)", 4, {0x45, 0x02, 0xaa, 0xbb}},
    {"7 (8500aa)", 3, {0x85, 0x00, 0xaa}},
    {"7 (05aa)", 2, {0x05, 0xaa}},
};

int main(void)
{
    static uint8_t longest[1601];
    size_t i;
    for (i = 0; i < sizeof examples / sizeof examples[0]; i++)
        printf("bench %s: %u\n", examples[i].bench, cendraviu_frame_check(examples[i].octets, examples[i].length));
    memset(longest, 0xaa, sizeof longest);
    longest[0] = 0x05;
    printf("bench 15 (1,600 octets): %u\n", cendraviu_frame_check(longest, 1600));
    printf("bench 15 (1,601 octets): %u\n", cendraviu_frame_check(longest, 1601));
    return 0;
}
