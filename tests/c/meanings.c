/* What each number means, in words, a line each, and the version of the library. */
#include <inttypes.h>
#include <stdio.h>

#include "synicboard.h"

static void print_all(const char *what, const char *(*text)(uint8_t))
{
    for (unsigned number = 0; number < 256; number++)
        if (text((uint8_t)number) != NULL)
            printf("%s %u %s\n", what, number, text((uint8_t)number));
}

int main(void)
{
    printf("version %" PRIu32 "\n", synicboard_version());
    print_all("outcome", synicboard_outcome_text);
    print_all("refusal", synicboard_refusal_text);
    print_all("notice", synicboard_notice_text);
    return 0;
}
