/* The library from C: checks a package, runs document 01's worked run over it, and shows two refusals.
 * examples/build builds and runs it. Its exit status is 0 if every answer is the expected one. */
#include <stdio.h>
#include <string.h>

#include "../include/dcc.h"

static const char PACKAGE[] =
    "010205\n"                                      /* generation 2, five domains */
    "020102\n020103\n020204\n020304\n"              /* 2 and 3 dominate 1, and 4 dominates 2 and 3 */
    "030000\n03010100\n03020101\n03030101\n03040100\n" /* classes 0 to 4, one in each domain */
    "050404010000FF00\n050303000001FF0101\n"        /* methods: 0 of class 4, static; 1 of class 3, takes a class 1 */
    "06000002\n06000003\n06000701\n"                /* method 0 makes classes 2 and 3, and calls method 1 */
    "07\n";

static const char SCRIPT[] =
    "1000\n"                 /* method 0 runs */
    "210002\n210103\n"       /* it makes object 0 of class 2 and object 1 of class 3 */
    "200001\n"               /* it widens object 0 to class 1 */
    "280101010100\n"         /* and hands it to object 1's method 1 */
    "2F\n";

static const char HOLDINGS[] = "30030001\n30030103\n30040001\n30040002\n30040103\n";

static int wrong = 0;

static const char *words(unsigned number) {
    if (number == DCC_ACCEPTED) return "accepted";
    if (number <= DCC_NO_END) return "the package text is not read";
    if (number <= DCC_SLOT_TWICE) return "the package's tables contradict themselves";
    if (number <= DCC_BREAKS_DCC3) return "the package breaks a rule";
    if (number <= DCC_RUN_BAD_START) return "the run text is not admitted";
    if (number <= DCC_STEP_NO_CALLER) return "a step is refused";
    return "the buffer is too short";
}

/* Prints an answer, and notes if it is not the expected one. */
static void expect(const char *what, uint64_t answer, unsigned number, unsigned first, unsigned second) {
    printf("%s: %u at %u, %u: %s\n", what, dcc_number(answer), dcc_first(answer), dcc_second(answer), words(dcc_number(answer)));
    if (dcc_number(answer) != number || dcc_first(answer) != first || dcc_second(answer) != second) {
        printf("  expected %u at %u, %u\n", number, first, second);
        wrong = 1;
    }
}

static uint64_t check(const char *text) { return dcc_check((const uint8_t *)text, strlen(text)); }

static uint64_t run(const char *package, const char *script, uint8_t *out, size_t out_len) {
    return dcc_run((const uint8_t *)package, strlen(package), (const uint8_t *)script, strlen(script), out, out_len);
}

static void print_holdings(const uint8_t *out, size_t length) {
    for (size_t at = 0; at < length; at += DCC_HOLDING_BYTES) {
        const char *line = (const char *)out + at;
        printf("  domain %.2s holds object %.2s as class %.2s\n", line + 2, line + 4, line + 6);
    }
}

int main(void) {
    static uint8_t out[DCC_BUFFER_BYTES];

    expect("the package", check(PACKAGE), DCC_ACCEPTED, 0, 0);
    expect("a package without its end", check("010201\n"), DCC_NO_END, 2, 0);

    memset(out, '.', sizeof out);
    uint64_t answer = run(PACKAGE, SCRIPT, out, sizeof out);
    expect("the run", answer, DCC_ACCEPTED, 0, 4);
    size_t length = dcc_length(answer);
    if (length != strlen(HOLDINGS) || memcmp(out, HOLDINGS, length) != 0 || out[length] != '.') {
        printf("  not the expected holdings\n");
        return 1;
    }
    print_holdings(out, length);

    expect("a step that no effect permits", run(PACKAGE, "1000\n210001\n2F\n", out, sizeof out), DCC_STEP_NOT_PERMITTED, 2, 0);
    expect("a short buffer", run(PACKAGE, SCRIPT, out, sizeof out - 1), DCC_BUFFER_TOO_SHORT, 0, 0);
    return wrong;
}
