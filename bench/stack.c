/* How many bytes of stack the entries take: each call runs on a painted stack of its own. Build and run: bench/run stack */
#define _POSIX_C_SOURCE 200809L
#include <pthread.h>
#include <runcefo.h>
#include <stdio.h>
#include <stdlib.h>
#include <string.h>

enum { STACK = 1 << 22, PAINT = 0xa5 };

/* A sheet, and which entry it is handed to. */
struct call {
    char entry;
    const char *sheet;
};

static void *run(void *arg) {
    const struct call *c = arg;
    const uint8_t *s = (const uint8_t *)c->sheet;
    static uint8_t out[CHARGE_SHEET];
    uint64_t line;
    size_t written;
    switch (c->entry) {
    case 'p':
        charge_plan(s, strlen(c->sheet), out, sizeof out, &written, &line);
        break;
    case 'r':
        charge_read(s, strlen(c->sheet), &line);
        break;
    case 'w':
        charge_write(s, strlen(c->sheet), out, sizeof out, &line);
        break;
    case 'v':
        charge_convert(s, strlen(c->sheet), out, sizeof out, &written, &line);
        break;
    case 's':
        charge_steps(s, strlen(c->sheet));
        break;
    case 'c':
        charge_cells(s, strlen(c->sheet));
        break;
    }
    return NULL;
}

/* How much of a painted stack a thread has changed. */
static size_t depth(struct call c) {
    unsigned char *stack = aligned_alloc(4096, STACK);
    pthread_attr_t attr;
    pthread_t thread;
    size_t i = 0;
    if (stack == NULL) {
        exit(1);
    }
    memset(stack, PAINT, STACK);
    pthread_attr_init(&attr);
    if (pthread_attr_setstack(&attr, stack, STACK) != 0 || pthread_create(&thread, &attr, run, &c) != 0) {
        exit(1);
    }
    pthread_join(thread, NULL);
    while (i < STACK && stack[i] == PAINT) {
        i++;
    }
    free(stack);
    return STACK - i;
}

/* The bounds of sixteen items. */
static char *bounds(char *at) {
    int k;
    at += sprintf(at, "lower 16\n");
    for (k = 1; k <= 16; k++) {
        at += sprintf(at, "%d 0\n", k);
    }
    at += sprintf(at, "upper 16\n");
    for (k = 1; k <= 16; k++) {
        at += sprintf(at, "%d 10\n", k);
    }
    return at;
}

/* Sixteen items with both bounds, prices near weights, which are ranges: both replies are searched for. If hard, all are integer and of like weight, so that the scales end the search; else every
   third one is continuous. */
static const char *crowd(char *text, int step, int hard) {
    char *at = text;
    int k;
    at += sprintf(at, "limit 1\n%d\nitems 16\n", hard ? 75201 : 9001);
    for (k = 0; k < 16; k++) {
        int like = 930 + (7 * k + step) % 21, weight = hard ? like : 97 + step * k;
        int price = hard ? 5 * like + 300 : 100 + step * k + k % 5;
        at += sprintf(at, "%c %d %d %d\n", k % 3 == 2 && !hard ? 'L' : 'W', weight - 1, weight, price);
    }
    at = bounds(at);
    sprintf(at, "needs 0\n");
    return text;
}

/* Eight items that are worth having, and eight that are not; each of the first needs two of the others. So the cases of the needs are as deep as they
   can be, and if hard the scales end the search of each. */
static const char *needy(char *text, int step, int hard) {
    char *at = text;
    int k;
    at += sprintf(at, "limit 1\n%d\nitems 16\n", hard ? 37601 : 9001);
    for (k = 0; k < 16; k++) {
        int like = 930 + (7 * k + step) % 21, weight = hard ? like : 97 + step * k;
        at += sprintf(at, "W %d %d %d\n", weight - 1, weight, k < 8 ? 5 * weight + 300 : 0);
    }
    at = bounds(at);
    at += sprintf(at, "needs 16\n");
    for (k = 1; k <= 8; k++) {
        at += sprintf(at, "%d %d\n%d 16\n", k, k == 8 ? 9 : k + 8, k);
    }
    return text;
}

int main(void) {
    static const char *few[] = {
        "limit 1\n20\nitems 2\nW 9 9 13\nL 3 3 2\nlower 2\n1 0\n2 0\nupper 2\n1 2\n2 5\nneeds 0\n",        /* optimal */
        "limit 1\n-15\nitems 2\nW -9 -9 -13\nL -1 -1 -2\nlower 2\n1 0\n2 0\nupper 2\n1 1\n2 5\nneeds 0\n", /* infeasible */
        "limit 1\n0\nitems 2\nW 2 2 3\nW -3 -3 -4\nlower 2\n1 0\n2 0\nupper 2\n1 none\n2 none\nneeds 0\n", /* unbounded */
        "limit 1\n0\nitems 17\n",                                                                          /* refused */
    };
    char text[4096];
    size_t most = 0, none = depth((struct call){'n', ""});
    size_t i, n = sizeof few / sizeof few[0];
    for (i = 0; i < n + 80; i++) {
        const char *sheet = i < n ? few[i] : i < n + 40 ? crowd(text, (int)(i - n), i % 2) : needy(text, (int)(i - n - 40), i % 2);
        const char *e;
        for (e = "prwvsc"; *e != '\0'; e++) {
            size_t d = depth((struct call){*e, sheet}) - none;
            most = d > most ? d : most;
        }
    }
    printf("stack: %zu bytes at most, of the %d that runcefo.h allows\n", most, CHARGE_STACK);
    return most > CHARGE_STACK;
}
