/* Every refusal and its sentence, and that of each number about them that is none; `make` builds and runs it. */
#include "kneukelboom.h"
#include <stdio.h>

int main(void) {
    for (unsigned number = 0; number <= KNEUKELBOOM_REFUSED_POINT_LEFT_OUT + 1; number++)
        printf("%u: %s\n", number, kneukelboom_sentence(number));
    return 0;
}
