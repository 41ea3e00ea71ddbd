/* run CALLS: answers a file of calls from boot, in document 01's text. */
#include "kernel.h"

#include <stdio.h>

/* Answers every row of the file; a last row of 1 to 7 bytes is of wrong form. */
static void answer_all(FILE *calls)
{
    struct kernel kernel;
    uint8_t row[ROW];
    size_t length;
    unsigned long line = 0;

    boot(&kernel);
    puts("line answer given running");
    while ((length = fread(row, 1, ROW, calls)) != 0) {
        struct answer answer = { .number = WRONG_FORM, .given = NONE, .running = kernel.running };
        if (length == ROW)
            step_row(&kernel, row, &answer);
        printf("%lu %d %d %d\n", ++line, answer.number, answer.given, answer.running);
    }
}

/* Opens the file named on the command line; exit status 1 if it cannot be read or the text not written. */
int main(int count, char **words)
{
    FILE *calls;

    if (count != 2) {
        fputs("usage: run CALLS\n", stderr);
        return 2;
    }
    calls = fopen(words[1], "rb");
    if (calls == NULL) {
        perror(words[1]);
        return 1;
    }
    answer_all(calls);
    if (ferror(calls) || fflush(stdout) != 0 || ferror(stdout)) {
        perror("run");
        return 1;
    }
    fclose(calls);
    return 0;
}
