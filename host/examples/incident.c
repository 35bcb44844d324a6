#include "dagsumilat.h"
#include <stdio.h>

static uint8_t dump[1 << 20], clip[sizeof dump];

int main(void) {
    size_t size = fread(dump, 1, sizeof dump, stdin);
    uint64_t from = 1772366400011000, to = 1772366403000000, answer[3];
    uint32_t mutes[] = {64499};
    dagsumilat_cut(dump, size, from, to, mutes, 1, clip, size, answer);
    if (answer[0] != DAGSUMILAT_OK)
        return 1; /* answer[0] says why, answer[1] where */
    return fwrite(clip, 1, answer[2], stdout) == answer[2] ? 0 : 2;
}
