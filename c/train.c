// The program `train` of document 01: a sheet on standard input; s and p after each surface, and their sum, on standard
// output. What is printed is the text of train_text.c. Ends with 0; with 1 where the sheet was refused, which is printed too;
// with 2 where the input could not be read or the output not written.
// SPDX-License-Identifier: MIT OR Apache-2.0
#include <stdio.h>

#include "train_text.c"

// More bytes than the longest sheet has, so that a longer input is refused and not cut.
static uint8_t sheet[65536];

static int failed(const char *sentence) {
    fprintf(stderr, "train: %s\n", sentence);
    return 2;
}

int main(int count, char **words) {
    if (count > 1) {
        fprintf(stderr, "usage: %s < SHEET\n", words[0]);
        return 2;
    }
    if (!dihkelu_environment_ok()) {
        return failed("subnormal numbers are flushed to zero or rounding is not to nearest: no answer would be right");
    }
    size_t size = fread(sheet, 1, sizeof sheet, stdin);
    if (ferror(stdin)) {
        return failed("the sheet cannot be read from standard input");
    }
    // No text is longer than 4096 bytes, so that none is refused.
    u8_x4096 page;
    result_u64_refusal_Refusal printed = train_text_train_text((slice_u8){sheet, size}, (slice_mut_u8){page.at, 4096});
    if (printed.tag != result_u64_refusal_Refusal_Ok || fwrite(page.at, 1, printed.as.Ok, stdout) != printed.as.Ok ||
        fflush(stdout) != 0) {
        return failed("the answer cannot be written to standard output");
    }
    return dihkelu_refusal(dihkelu_gate(sheet, size)) != 0 ? 1 : 0;
}
