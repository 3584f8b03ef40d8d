// A parser by the LR(1) tables of lrshow 0.23.1. Do not edit it.
//
// Start symbol: Input. Method: lane. Conflicts: none. States: 18.
// The tables are exact: a state has an action on a terminal only if the LR(1) tables have one.
// Include it. All its names begin with calc_ or CALC_.

#ifndef CALC_TABLES
#define CALC_TABLES

#include <stddef.h>
#include <stdint.h>

typedef enum {
    CALC_T_LPAREN, // "("
    CALC_T_RPAREN, // ")"
    CALC_T_STAR, // "*"
    CALC_T_PLUS, // "+"
    CALC_T_MINUS, // "-"
    CALC_T_SLASH, // "/"
    CALC_T_NUMBER, // "number"
    CALC_T_END // the end of the input
} calc_terminal;

typedef enum {
    CALC_N_FACTOR, // Factor
    CALC_N_INPUT, // Input
    CALC_N_PRODUCT, // Product
    CALC_N_SUM // Sum
} calc_nonterminal;

typedef enum {
    CALC_P_FACTOR_IS_NUMBER, // Factor = "number"
    CALC_P_FACTOR_IS_MINUS_FACTOR, // Factor = "-" Factor
    CALC_P_FACTOR_IS_LPAREN_SUM_RPAREN, // Factor = "(" Sum ")"
    CALC_P_INPUT_IS_SUM, // Input = Sum
    CALC_P_PRODUCT_IS_PRODUCT_STAR_FACTOR, // Product = Product "*" Factor
    CALC_P_PRODUCT_IS_PRODUCT_SLASH_FACTOR, // Product = Product "/" Factor
    CALC_P_PRODUCT_IS_FACTOR, // Product = Factor
    CALC_P_SUM_IS_SUM_PLUS_PRODUCT, // Sum = Sum "+" Product
    CALC_P_SUM_IS_SUM_MINUS_PRODUCT, // Sum = Sum "-" Product
    CALC_P_SUM_IS_PRODUCT // Sum = Product
} calc_production;

enum {
    CALC_TERMINALS = 8,
    CALC_PRODUCTIONS = 10,
    CALC_SET_BYTES = 1
};

// the text of a terminal
static const char *const calc_terminal_texts[] = {
    "(",
    ")",
    "*",
    "+",
    "-",
    "/",
    "number",
    "end of input",
};

// the name of a nonterminal
static const char *const calc_nonterminal_texts[] = {
    "Factor",
    "Input",
    "Product",
    "Sum",
};

static const struct {
    // where the row of a state begins in the next two arrays
    uint8_t row[18];
    // the terminal to which a cell belongs
    uint8_t column[18];
    // the action in a cell
    uint8_t cell[18];
    // the usual reduction of a state, as an action, or 0
    uint8_t reduction[18];
    // the set of the terminals on which a state makes its usual reduction
    uint8_t set[18];
    // the sets, by their bits: the lowest bit of a byte is of the first terminal
    uint8_t sets[3];
    // where the row of a state begins in the next two arrays
    uint8_t goto_row[18];
    // the nonterminal to which a cell belongs
    uint8_t goto_column[10];
    // the state to which a goto leads
    uint8_t goto_cell[10];
    // where the gotos on a nonterminal lead in most states
    uint8_t goto_usual[4];
    // the nonterminal of a production
    uint8_t left[10];
    // how many symbols the right side of a production has
    uint8_t length[10];
} calc_tables = {
    .row = {
        0, 0, 0, 0, 0, 0, 0, 1, 7, 10, 1, 4, 1, 1, 1, 7, 7, 1,
    },
    .column = {
        0, 8, 8, 8, 4, 1, 6, 3, 4, 2, 8, 8, 5, 3, 4, 8, 8, 8,
    },
    .cell = {
        12, 0, 0, 0, 13, 28, 21, 16, 17, 14, 0, 0, 15, 16, 17, 0, 0, 0,
    },
    .reduction = {
        0, 0, 0, 0, 0, 0, 0, 7, 10, 4, 1, 0, 2, 5, 6, 8, 9, 3,
    },
    .set = {
        0, 0, 0, 0, 0, 0, 0, 0, 1, 2, 0, 0, 0, 0, 0, 1, 1, 0,
    },
    .sets = {
        190, 154, 128,
    },
    .goto_row = {
        6, 0, 1, 2, 4, 3, 5, 6, 6, 6, 6, 6, 6, 6, 6, 6, 6, 6,
    },
    .goto_column = {
        4, 0, 0, 3, 0, 2, 4, 2, 4, 4,
    },
    .goto_cell = {
        0, 12, 13, 11, 14, 15, 0, 16, 0, 0,
    },
    .goto_usual = {
        7, 0, 8, 9,
    },
    .left = {
        0, 0, 0, 1, 2, 2, 2, 3, 3, 3,
    },
    .length = {
        1, 2, 3, 1, 3, 3, 1, 3, 3, 1,
    },
};

// The action of a state on a terminal: 0 refuses it, a number up to CALC_PRODUCTIONS reduces by the
// production before it, and a larger one shifts. A shift to state 0 accepts the input.
static inline uint32_t calc_action_of(uint32_t state, uint32_t terminal)
{
    uint32_t place = calc_tables.row[state] + terminal;
    if (calc_tables.column[place] == terminal)
        return calc_tables.cell[place];
    if (calc_tables.sets[(uint32_t)calc_tables.set[state] * CALC_SET_BYTES + terminal / 8] >> terminal % 8 & 1)
        return calc_tables.reduction[state];
    return 0;
}

// The state to which the goto of a state leads, or 0 if there is none.
static inline uint32_t calc_goto_of(uint32_t state, uint32_t nonterminal)
{
    uint32_t place = calc_tables.goto_row[state] + nonterminal;
    return calc_tables.goto_column[place] == nonterminal ? calc_tables.goto_cell[place] : calc_tables.goto_usual[nonterminal];
}

static inline const char *calc_terminal_text(calc_terminal terminal)
{
    return calc_terminal_texts[terminal];
}

static inline const char *calc_nonterminal_text(calc_nonterminal nonterminal)
{
    return calc_nonterminal_texts[nonterminal];
}

static inline calc_nonterminal calc_left_side(calc_production production)
{
    return (calc_nonterminal)calc_tables.left[production];
}

static inline size_t calc_right_length(calc_production production)
{
    return calc_tables.length[production];
}

// A place of the stack: a state, and the position at which the symbol after it begins.
typedef struct {
    size_t first;
    uint32_t state;
} calc_entry;

// A run. Its members are 0 at the beginning, except for example
// `calc_run run = {.resize = realloc, .left = SIZE_MAX};`. Free `stack` in the end.
typedef struct {
    void *(*resize)(void *stack, size_t bytes); // makes the stack larger, or is NULL
    calc_entry *stack;                            // the entries below the state
    size_t room, depth;                         // how many entries fit, and how many there are
    size_t position;                            // how many terminals were read
    size_t left;                                // how many steps may be made
    uint32_t state;
} calc_run;

// What takes the steps of a run. A result other than 0 stops the run. A reduction has the terminals
// from the position `first` up to `end`, without `end`.
typedef struct {
    void *context;
    int (*shift)(void *context, size_t position, calc_terminal terminal);
    int (*reduce)(void *context, calc_production production, size_t first, size_t end);
} calc_handler;

typedef enum {
    CALC_GOES_ON,  // the terminal was shifted
    CALC_ACCEPTED, // the input is a sentence
    CALC_REFUSED,  // the terminal at `position` is wrong
    CALC_LIMIT,    // no step was left
    CALC_STOPPED,  // the handler stopped the run
    CALC_NO_ROOM   // the stack could not be made larger
} calc_result;

// A run on a terminal that is not shifted yet. Of the stack, the first `base` entries are in force,
// and after them `fresh` ones that are above those of the run. So the run is kept.
typedef struct {
    size_t base, fresh, left;
    uint32_t state, action;
} calc_trial;

// Writes an entry of the stack. Returns 0 if there is no room for it.
static inline int calc_put(calc_run *run, size_t place, uint32_t state, size_t first)
{
    if (place >= run->room) {
        size_t room = place < 32 ? 64 : 2 * place;
        if (run->resize == NULL || room > SIZE_MAX / sizeof(calc_entry))
            return 0;
        calc_entry *stack = (calc_entry *)run->resize(run->stack, room * sizeof(calc_entry));
        if (stack == NULL)
            return 0;
        run->stack = stack;
        run->room = room;
    }
    run->stack[place].state = state;
    run->stack[place].first = first;
    return 1;
}

// Makes the reductions on a terminal. A handler that is NULL takes no steps.
static inline calc_result calc_reduce_all(calc_run *run, const calc_handler *handler, uint32_t terminal, calc_trial *trial)
{
    while ((trial->action = calc_action_of(trial->state, terminal)) - 1 < CALC_PRODUCTIONS) {
        uint32_t production = trial->action - 1;
        size_t length = calc_tables.length[production], place;
        if (trial->left == 0)
            return CALC_LIMIT;
        trial->left--;
        if (length > trial->fresh) {
            place = trial->base - (length - trial->fresh);
            trial->base = place + 1;
            trial->fresh = 0;
        } else {
            trial->fresh -= length;
            place = run->depth + trial->fresh++;
            if (length == 0 && !calc_put(run, place, trial->state, run->position))
                return CALC_NO_ROOM;
        }
        calc_entry entry = run->stack[place];
        if (handler && handler->reduce(handler->context, (calc_production)production, entry.first, run->position))
            return CALC_STOPPED;
        trial->state = calc_goto_of(entry.state, calc_tables.left[production]);
        if (trial->state == 0)
            return terminal == CALC_T_END ? CALC_ACCEPTED : CALC_REFUSED;
    }
    if (trial->action == 0)
        return CALC_REFUSED;
    return terminal == CALC_T_END ? CALC_ACCEPTED : CALC_GOES_ON;
}

// Reads a terminal, or the end of the input. After a refusal the run is as before. But the handler
// may have taken reductions.
static inline calc_result calc_push(calc_run *run, const calc_handler *handler, calc_terminal terminal)
{
    calc_trial trial = {run->depth, 0, run->left, run->state, 0};
    if ((uint32_t)terminal > CALC_T_END)
        return CALC_REFUSED;
    calc_result result = calc_reduce_all(run, handler, (uint32_t)terminal, &trial);
    if (result != CALC_GOES_ON)
        return result;
    if (trial.left == 0)
        return CALC_LIMIT;
    if (handler && handler->shift(handler->context, run->position, terminal))
        return CALC_STOPPED;
    for (size_t place = run->depth; trial.fresh > 0; trial.fresh--)
        run->stack[trial.base++] = run->stack[place++];
    if (!calc_put(run, trial.base, trial.state, run->position))
        return CALC_NO_ROOM;
    run->depth = trial.base + 1;
    run->state = trial.action - CALC_PRODUCTIONS - 1;
    run->left = trial.left - 1;
    run->position++;
    return CALC_GOES_ON;
}

// Reads what `next` returns, up to the end of the input.
static inline calc_result calc_parse(calc_run *run, const calc_handler *handler, calc_terminal (*next)(void *context))
{
    calc_result result;
    do
        result = calc_push(run, handler, next(handler->context));
    while (result == CALC_GOES_ON);
    return result;
}

// Lists the terminals that may come next in the steps that are left, each after a trial, and
// CALC_T_END if the input may end. Returns how many they are: at most CALC_TERMINALS.
static inline size_t calc_expected(calc_run *run, calc_terminal *expected)
{
    size_t count = 0;
    for (uint32_t terminal = 0; terminal < CALC_TERMINALS; terminal++) {
        calc_trial trial = {run->depth, 0, run->left, run->state, 0};
        calc_result result = calc_reduce_all(run, NULL, terminal, &trial);
        if (result == CALC_ACCEPTED || (result == CALC_GOES_ON && trial.left > 0))
            expected[count++] = (calc_terminal)terminal;
    }
    return count;
}

#endif
