/* A ring and a ball as one form, asked at three points, and a refusal. */
#include "dotterelwire.h"
#include <stdio.h>

#define TAG(s) (const uint8_t *)(s), sizeof(s) - 1
#define MODEL model, sizeof model
#define OUT out, sizeof out

static uint8_t model[DW_MODEL];
static uint8_t out[DW_REPORT];

static void refused(uint32_t code) {
    printf("refused %u \"%.*s\" %llu\n", code, (int)dw_word(out, 16), (const char *)out + 24,
           (unsigned long long)dw_word(out, 8));
}

static void ask(double x, double y, double z) {
    uint32_t code = dw_evaluate_at(MODEL, TAG("both"), dw_bits(x), dw_bits(y), dw_bits(z), OUT);
    if (code != 0) {
        refused(code);
        return;
    }
    double number = dw_number(dw_word(out, 56));
    printf("(%g, %g, %g): %g, %s\n", x, y, z, number, number < 0 ? "wall" : "air");
}

int main(void) {
    uint64_t zero = dw_bits(0), one = dw_bits(1), five = dw_bits(5);
    uint32_t code = dw_new(MODEL, OUT);
    if (code == 0) code = dw_add_function(MODEL, TAG("ball"), DW_SPHERE, zero, zero, zero, one, 0, OUT);
    if (code == 0) code = dw_add_function(MODEL, TAG("ring"), DW_TORUS, zero, zero, zero, five, one, OUT);
    /* two inputs given */
    if (code == 0)
        code = dw_add_operation(MODEL, TAG("both"), DW_BOOLEAN_UNION, 0, 0, 0, 0, 0, 3, TAG("ball"), TAG("ring"),
                                TAG(""), OUT);
    if (code != 0) {
        refused(code);
        return 1;
    }
    ask(3, 0, 4);
    ask(0, 0, 0);
    ask(0, 3, 0);
    refused(dw_add_input(MODEL, TAG("both"), TAG("both"), 1, OUT));
    refused(dw_remove_component(MODEL, TAG("bell"), OUT));
    return 0;
}
