/* Sheets from commands, one on a line: sheets < COMMANDS. A command is a kind, a payload and the bits of four numbers; kind 1 begins a sheet in
 * PAYLOAD bytes, kind 5 ends it and prints what the end returned, what it is in words, and the bytes; kind 8 prints the words of a refusal, of which
 * the payload is the number and the first bits are the place. */
#include <inttypes.h>
#include <stdio.h>
#include <stdlib.h>
#include <string.h>

#include "dihkelu_sheet.h"

static double number(uint64_t bits) {
    double x;
    memcpy(&x, &bits, sizeof x);
    return x;
}

static void said(uint64_t returned) {
    char text[200];
    if (dihkelu_refusal_text(returned, text, sizeof text) != strlen(text)) exit(3);
    printf("%016" PRIX64 " %s ", returned, text);
}

static void ended(dihkelu_sheet *sheet, const uint8_t *bytes) {
    uint64_t returned = dihkelu_sheet_end(sheet);
    said(returned);
    for (uint32_t i = 0; i < dihkelu_value(returned); i++) printf("%02X", bytes[i]);
    putchar('\n');
}

/* A text that is too long for its bytes is cut off, and its whole length returned; none is written to no bytes. */
static int cut_off(void) {
    char text[8] = "#######";
    size_t whole = dihkelu_refusal_text((uint64_t)8 << 32, text, 6);
    if (whole != strlen("refused 8 0: the list is too short") || strcmp(text, "refus") != 0 || text[6] != '#') return 0;
    return dihkelu_refusal_text((uint64_t)8 << 32, NULL, 0) == whole;
}

int main(void) {
    uint8_t *bytes = NULL;
    dihkelu_sheet sheet;
    unsigned kind, payload;
    uint64_t a, b, c, d;
    if (!cut_off()) return 3;
    while (scanf("%u %u %" SCNx64 " %" SCNx64 " %" SCNx64 " %" SCNx64, &kind, &payload, &a, &b, &c, &d) == 6) {
        if (kind == 1) {
            free(bytes); /* a block of exactly so many bytes, so that a sanitizer sees what is behind it */
            bytes = malloc(payload ? payload : 1);
            if (bytes == NULL) return 2;
            dihkelu_sheet_begin(&sheet, bytes, payload);
        }
        if (kind == 2) dihkelu_sheet_beam(&sheet, number(a), number(b), number(c));
        if (kind == 3) dihkelu_sheet_surface(&sheet, payload / 2, payload % 2, number(a), number(b), number(c));
        if (kind == 4) dihkelu_sheet_layer(&sheet, number(a), number(b), number(c));
        if (kind == 6) dihkelu_sheet_glass(&sheet, number(a), number(b), number(c), number(d));
        if (kind == 7) dihkelu_sheet_retune(&sheet, number(a));
        if (kind == 5) ended(&sheet, bytes);
        if (kind == 8) said((uint64_t)payload << 32 | a), putchar('\n');
    }
    free(bytes);
    return 0;
}
