/* Plans the sheet on standard input and prints the reply; with no sheet there, one of its own.
   cc -Wall -o plan examples/plan.c $(pkg-config --cflags --libs runcefo) */
#include <runcefo.h>
#include <stdio.h>
#include <string.h>

static const char sample[] = "limit 1\n20\nitems 2\nW 9 9 13\nL 3 3 2\nlower 2\n1 0\n2 0\nupper 2\n1 2\n2 5\nneeds 0\n";

int main(void) {
    uint8_t sheet[CHARGE_SHEET + 1];
    uint8_t reply[CHARGE_ROOM];
    uint64_t number, line;
    size_t written, length = fread(sheet, 1, sizeof sheet, stdin);
    if (ferror(stdin)) {
        perror("standard input");
        return 1;
    }
    if (length == 0) {
        length = sizeof sample - 1;
        memcpy(sheet, sample, length);
    }
    number = charge_plan(sheet, length, reply, sizeof reply, &written, &line);
    if (number != CHARGE_ACCEPTED) {
        fprintf(stderr, "refused %llu: see line %llu\n", (unsigned long long)number, (unsigned long long)line);
        return 1;
    }
    return fwrite(reply, 1, written, stdout) == written ? 0 : 1;
}
