/* Checks a sheet from standard input, prints the kind code of each line, then runs it over sixteen readings of 0 and
 * prints its text. The status is the number of the refusal. */
#include "boresheet.h"
#include <stdio.h>

static uint8_t sheet[16385]; /* one byte more than a sheet may have: a longer one is refused for its size */
static uint8_t kinds[BORESHEET_KINDS];
static uint8_t out[BORESHEET_OUT];

static int refused(const char *who, uint32_t number, uint32_t line)
{
    fprintf(stderr, "%s: refusal %u at line %u\n", who, (unsigned)number, (unsigned)line);
    return (int)number;
}

int main(void)
{
    const double readings[BORESHEET_READINGS] = {0};
    size_t size = fread(sheet, 1, sizeof sheet, stdin);
    uint32_t line;
    uint64_t written;
    uint32_t number = boresheet_check(sheet, size, kinds, sizeof kinds, &line);
    if (number != 0)
        return refused("check", number, line);
    fputs("kinds", stdout);
    for (size_t i = 0, k = 0; i < size; i++)
        if (sheet[i] == '\n')
            printf(" %u", (unsigned)kinds[k++]);
    putchar('\n');
    number = boresheet_run(sheet, size, readings, BORESHEET_READINGS, out, sizeof out, &line, &written);
    fwrite(out, 1, written, stdout);
    return number == 0 ? 0 : refused("run", number, line);
}
