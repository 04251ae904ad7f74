/* The stack that a multiple of each curve's base point takes: the main of curve_vectors, under the name multiples, answers one line on a painted
 * stack of its own, and what is no longer painted is counted. An empty input shows what the program takes without a multiple. speed.sh builds it. */
#include <stdint.h>
#include <stdio.h>
#include <string.h>
#include <ucontext.h>
#include <unistd.h>

enum { SIZE = 1 << 20, PAINT = 0xA5 };
static uint8_t stack[SIZE];
static ucontext_t here, there;
extern void multiples(void);
static void nothing(void) {}

static size_t used(void (*f)(void), const char *line) {
    int ends[2];
    if (pipe(ends) || write(ends[1], line, strlen(line)) < 0 || dup2(ends[0], 0) < 0) return 0;
    close(ends[0]), close(ends[1]);
    memset(stack, PAINT, SIZE);
    getcontext(&there);
    there.uc_stack.ss_sp = stack, there.uc_stack.ss_size = SIZE, there.uc_link = &here;
    makecontext(&there, f, 0);
    swapcontext(&here, &there);
    size_t i = 0;
    while (i < SIZE && stack[i] == PAINT) i++;
    return SIZE - i;
}

int main(void) {
    static const char *names[] = {"secp160r1", "secp256r1"};
    size_t base = used(nothing, "");
    fprintf(stderr, "stack without a multiple: %zu bytes\n", used(multiples, "") - base);
    for (int curve = 0; curve < 2; curve++) {
        char line[68];
        snprintf(line, sizeof line, "%d %064d\n", curve, 0);
        memset(line + 2, '9', 64);
        fprintf(stderr, "stack with one on %s: %zu bytes\n", names[curve], used(multiples, line) - base);
    }
    return 0;
}
