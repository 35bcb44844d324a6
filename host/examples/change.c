#include "dagsumilat.h"
#include <stdio.h>

int main(void) {
    uint8_t in[64], out[64];
    uint64_t is[20], answer[2];
    dagsumilat_read(in, fread(in, 1, sizeof in, stdin), DAGSUMILAT_NONE, is);
    if (is[0] != DAGSUMILAT_OK || is[2] != DAGSUMILAT_CHANGE)
        return 1; /* is[0] says why, is[1] where */
    dagsumilat_write_change(is[3], is[4] == 17, is[7], is[5], is[8], is[9], is[10], is[11], in + is[12], is[13], in + is[14],
                            is[15], is[16], is[17], out, sizeof out, answer);
    return answer[0] == DAGSUMILAT_OK && fwrite(out, 1, answer[1], stdout) == answer[1] ? 0 : 2;
}
