// main EXPRESSION prints the value of the expression.
#include <stdio.h>
#include <stdlib.h>
#include "calc.h"

// Where the text is read, the number that was read last, and the value of each symbol on the stack.
struct calculation { const char *at; double number, values[1000]; size_t count; };

static calc_terminal next(void *context)
{
    struct calculation *it = context;
    while (*it->at == ' ') it->at++;
    for (calc_terminal sign = CALC_T_LPAREN; sign < CALC_T_NUMBER; sign++)
        if (*it->at == *calc_terminal_text(sign)) return it->at++, sign;
    char *end;
    it->number = strtod(it->at, &end);
    if (end > it->at) return it->at = end, CALC_T_NUMBER;
    return *it->at == '\0' ? CALC_T_END : (calc_terminal)-1; // -1 is no terminal, and is refused
}

static int shift(void *context, size_t position, calc_terminal terminal)
{
    struct calculation *it = context;
    it->values[it->count++] = it->number;
    return (void)position, (void)terminal, it->count == 1000;
}

static int reduce(void *context, calc_production production, size_t first, size_t end)
{
    struct calculation *it = context;
    double *value = it->values + (it->count -= calc_right_length(production));
    switch (production) {
    case CALC_P_SUM_IS_SUM_PLUS_PRODUCT: value[0] += value[2]; break;
    case CALC_P_SUM_IS_SUM_MINUS_PRODUCT: value[0] -= value[2]; break;
    case CALC_P_PRODUCT_IS_PRODUCT_STAR_FACTOR: value[0] *= value[2]; break;
    case CALC_P_PRODUCT_IS_PRODUCT_SLASH_FACTOR: value[0] /= value[2]; break;
    case CALC_P_FACTOR_IS_MINUS_FACTOR: value[0] = -value[1]; break;
    case CALC_P_FACTOR_IS_LPAREN_SUM_RPAREN: value[0] = value[1]; break;
    default: break; // one symbol, whose value is kept
    }
    return (void)first, (void)end, it->count++, 0;
}

int main(int argc, char **argv)
{
    struct calculation it = {.at = argc > 1 ? argv[1] : ""};
    calc_run run = {.resize = realloc, .left = SIZE_MAX};
    calc_terminal expected[CALC_TERMINALS];
    calc_result result = calc_parse(&run, &(calc_handler){&it, shift, reduce}, next);
    const char *how = result == CALC_REFUSED ? "is wrong" : "needs more room";
    size_t count = result == CALC_ACCEPTED ? 0 : calc_expected(&run, expected);
    if (result == CALC_ACCEPTED) printf("%g\n", it.values[0]);
    else fprintf(stderr, "token %zu %s; expected:", run.position + 1, how);
    for (size_t place = 0; place < count; place++)
        fprintf(stderr, " %s%s", calc_terminal_text(expected[place]), place + 1 < count ? "" : "\n");
    free(run.stack);
    return result != CALC_ACCEPTED;
}
