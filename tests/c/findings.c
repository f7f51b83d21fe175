/* Prints the names of findings of all kinds and rules, in C or C++. */
#include "afdx_judge.h"

#include <stdio.h>

int main(void) {
    for (unsigned k = 0; k < 65536; k++) {
        const afdx_finding it = {0, 0, 0, 0, 0, 0, (uint8_t)(k >> 8), (uint8_t)k};
        puts(afdx_finding_name(&it));
    }
    return 0;
}
