/* Prints the refusals' texts as the header has them, a line for each number, and one for all other numbers. */
#include "../include/brassgroat.h"

#include <stdio.h>
#include <string.h>

int main(void)
{
    const char *other = bg_refusal_text(0xffffffff);
    for (uint32_t i = 1; i < 1000; i++)
        if (strcmp(bg_refusal_text(i), other) != 0)
            printf("%u %s\n", (unsigned)i, bg_refusal_text(i));
    printf("other %s\n", other);
    return 0;
}
