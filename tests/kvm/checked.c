/* checked FILE: whether the file is the trace of a legal history, and how many entries it has. */
#include <inttypes.h>
#include <stdio.h>
#include <stdlib.h>

#include "synicboard.h"

int main(int count, char **words)
{
    FILE *file = count == 2 ? fopen(words[1], "rb") : NULL;
    if (file == NULL || fseek(file, 0, SEEK_END) != 0)
        return 2;
    size_t length = (size_t)ftell(file);
    uint8_t *text = malloc(length + 1);
    rewind(file);
    if (text == NULL || fread(text, 1, length, file) != length)
        return 2;
    fclose(file);
    synicboard_verdict verdict = synicboard_check(text, length);
    free(text);
    if (verdict.kind == SYNICBOARD_OK)
        printf("legal %" PRIu64 "\n", verdict.entries);
    else
        printf("kind %u line %" PRIu64 "\n", verdict.kind, verdict.line);
    return verdict.kind != SYNICBOARD_OK;
}
