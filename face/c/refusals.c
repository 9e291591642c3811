/* The texts of the refusals: every number has one, and no two numbers that calls give have the same. */
#include "check.h"

#include <string.h>

enum { TRIED = 21 };

void refusals(void)
{
    const char *unknown = bg_refusal_text(0xffffffff);
    EXPECT(strlen(unknown) > 0);
    EXPECT(strcmp(bg_refusal_text(BG_DONE), "done") == 0);
    for (uint32_t i = 0; i < TRIED; i++) {
        const char *text = bg_refusal_text(i);
        EXPECT(strlen(text) > 0);
        /* What is wrong, and after one colon what to do. */
        EXPECT(i == BG_DONE || (strchr(text, ':') != NULL && strchr(text, ':') == strrchr(text, ':')));
        EXPECT((strcmp(text, unknown) == 0) == (i > BG_EXPONENT));
        for (uint32_t k = 0; k < i && i <= BG_EXPONENT; k++)
            EXPECT(strcmp(text, bg_refusal_text(k)) != 0);
    }
}
