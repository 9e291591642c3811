/* Test of the version: the archive's is the header's. */
#include "check.h"

void version(void)
{
    EXPECT(bg_version() == BG_VERSION);
}
