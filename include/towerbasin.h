/* The calls of Towerbasin for C and for whatever calls C: numbers and byte areas only. */
#ifndef TOWERBASIN_H
#define TOWERBASIN_H

#include <stddef.h>
#include <stdint.h>

#ifdef __cplusplus
extern "C" {
#endif

/* The least bytes of the lent areas, and the most lines of a sheet. */
#define TOWERBASIN_SELECTION_LEAST 428
#define TOWERBASIN_SHEET_LEAST 7214
#define TOWERBASIN_WORK_LEAST 65536
#define TOWERBASIN_MOST_LINES 480

/* The parts of an answer, from its highest byte: number (1), text at fault (1), line (2), place (2, always 0), length (2). */
#define TOWERBASIN_NUMBER(answer) ((uint8_t)((answer) >> 56))
#define TOWERBASIN_TEXT(answer) ((uint8_t)((answer) >> 48))
#define TOWERBASIN_LINE(answer) ((uint16_t)((answer) >> 32))
#define TOWERBASIN_PLACE(answer) ((uint16_t)((answer) >> 16))
#define TOWERBASIN_LENGTH(answer) ((uint16_t)(answer))

/* The text at fault. */
#define TOWERBASIN_NEITHER 0
#define TOWERBASIN_CATALOGUE 1
#define TOWERBASIN_SHEET 2

/*
 * Picks for a catalogue's text. Number 0: the best selection's text stands at the start of the selection area. 9: no selection is valid, and a sheet that
 * shows it stands at the start of the sheet area. 10: no selection is valid, and no sheet fitted the allowance. 11: an area is too small, or the allowance
 * too large; nothing is changed. 1 to 8: the text is refused at the line told. The length is that of the text written, else 0.
 *
 * Every other byte of the selection and the sheet area stays, and with any number but 11 the work area is all zero afterwards. No two areas may overlap,
 * and none may overlap the text. Nothing is kept between calls, so calls with different areas may run at the same time. A call takes less than 64 KB of
 * stack.
 */
uint64_t towerbasin_pick(const uint8_t *text, size_t text_length, uint8_t *selection, size_t selection_length, uint8_t *sheet, size_t sheet_length,
                         uint8_t *work, size_t work_length, uint16_t allowance);

/*
 * Checks a sheet over a catalogue's text. Number 0: the sheet shows that no selection is valid. 13: it is well formed and does not. 11: the work area is
 * too small; nothing is changed. Else the text at fault is refused at the line told, the catalogue with 1 to 8, and after it the sheet with 1 to 6. The
 * length is 0. The work area is all zero afterwards but with 11, and must not overlap the texts.
 */
uint64_t towerbasin_check(const uint8_t *text, size_t text_length, const uint8_t *sheet, size_t sheet_length, uint8_t *work, size_t work_length);

#ifdef __cplusplus
}
#endif

#endif
