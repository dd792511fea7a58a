/* Picks for the catalogue on standard input, has a sheet checked, and says in words how it came out, with the selection or the sheet below. */
#include <stdio.h>
#include <towerbasin.h>

static uint8_t text[32769]; /* one byte more than a text may have */
static uint8_t selection[TOWERBASIN_SELECTION_LEAST];
static uint8_t sheet[TOWERBASIN_SHEET_LEAST];
static uint8_t work[TOWERBASIN_WORK_LEAST];

int main(void)
{
    size_t size = fread(text, 1, sizeof text, stdin);
    if (ferror(stdin)) {
        perror("standard input");
        return 1;
    }
    uint64_t answer =
        towerbasin_pick(text, size, selection, sizeof selection, sheet, sizeof sheet, work, sizeof work, TOWERBASIN_MOST_LINES);
    switch (TOWERBASIN_NUMBER(answer)) {
    case 0:
        puts("the best selection:");
        fwrite(selection, 1, TOWERBASIN_LENGTH(answer), stdout);
        break;
    case 9:
        if (towerbasin_check(text, size, sheet, TOWERBASIN_LENGTH(answer), work, sizeof work) != 0) {
            puts("the checker refuses the sheet");
            break;
        }
        puts("no selection is valid, as this sheet shows:");
        fwrite(sheet, 1, TOWERBASIN_LENGTH(answer), stdout);
        break;
    case 10:
        puts("no selection is valid, and no sheet is short enough");
        break;
    default:
        printf("refused with %d at line %d\n", TOWERBASIN_NUMBER(answer), TOWERBASIN_LINE(answer));
    }
    return fflush(stdout) == 0 ? 0 : 1;
}
