// A place of the stack: a state, and the position at which the symbol after it begins.
typedef struct {
    size_t first;
    uint32_t state;
} lr_entry;

// A run. Its members are 0 at the beginning, except for example
// `lr_run run = {.resize = realloc, .left = SIZE_MAX};`. Free `stack` in the end.
typedef struct {
    void *(*resize)(void *stack, size_t bytes); // makes the stack larger, or is NULL
    lr_entry *stack;                            // the entries below the state
    size_t room, depth;                         // how many entries fit, and how many there are
    size_t position;                            // how many terminals were read
    size_t left;                                // how many steps may be made
    uint32_t state;
} lr_run;

// What takes the steps of a run. A result other than 0 stops the run. A reduction has the terminals
// from the position `first` up to `end`, without `end`.
typedef struct {
    void *context;
    int (*shift)(void *context, size_t position, lr_terminal terminal);
    int (*reduce)(void *context, lr_production production, size_t first, size_t end);
} lr_handler;

typedef enum {
    LR_GOES_ON,  // the terminal was shifted
    LR_ACCEPTED, // the input is a sentence
    LR_REFUSED,  // the terminal at `position` is wrong
    LR_LIMIT,    // no step was left
    LR_STOPPED,  // the handler stopped the run
    LR_NO_ROOM   // the stack could not be made larger
} lr_result;

// A run on a terminal that is not shifted yet. Of the stack, the first `base` entries are in force,
// and after them `fresh` ones that are above those of the run. So the run is kept.
typedef struct {
    size_t base, fresh, left;
    uint32_t state, action;
} lr_trial;

// Writes an entry of the stack. Returns 0 if there is no room for it.
static inline int lr_put(lr_run *run, size_t place, uint32_t state, size_t first)
{
    if (place >= run->room) {
        size_t room = place < 32 ? 64 : 2 * place;
        if (run->resize == NULL || room > SIZE_MAX / sizeof(lr_entry))
            return 0;
        lr_entry *stack = (lr_entry *)run->resize(run->stack, room * sizeof(lr_entry));
        if (stack == NULL)
            return 0;
        run->stack = stack;
        run->room = room;
    }
    run->stack[place].state = state;
    run->stack[place].first = first;
    return 1;
}

// Makes the reductions on a terminal. A handler that is NULL takes no steps.
static inline lr_result lr_reduce_all(lr_run *run, const lr_handler *handler, uint32_t terminal, lr_trial *trial)
{
    while ((trial->action = lr_action_of(trial->state, terminal)) - 1 < LR_PRODUCTIONS) {
        uint32_t production = trial->action - 1;
        size_t length = lr_tables.length[production], place;
        if (trial->left == 0)
            return LR_LIMIT;
        trial->left--;
        if (length > trial->fresh) {
            place = trial->base - (length - trial->fresh);
            trial->base = place + 1;
            trial->fresh = 0;
        } else {
            trial->fresh -= length;
            place = run->depth + trial->fresh++;
            if (length == 0 && !lr_put(run, place, trial->state, run->position))
                return LR_NO_ROOM;
        }
        lr_entry entry = run->stack[place];
        if (handler && handler->reduce(handler->context, (lr_production)production, entry.first, run->position))
            return LR_STOPPED;
        trial->state = lr_goto_of(entry.state, lr_tables.left[production]);
        if (trial->state == 0)
            return terminal == LR_T_END ? LR_ACCEPTED : LR_REFUSED;
    }
    if (trial->action == 0)
        return LR_REFUSED;
    return terminal == LR_T_END ? LR_ACCEPTED : LR_GOES_ON;
}

// Reads a terminal, or the end of the input. After a refusal the run is as before. But the handler
// may have taken reductions.
static inline lr_result lr_push(lr_run *run, const lr_handler *handler, lr_terminal terminal)
{
    lr_trial trial = {run->depth, 0, run->left, run->state, 0};
    if ((uint32_t)terminal > LR_T_END)
        return LR_REFUSED;
    lr_result result = lr_reduce_all(run, handler, (uint32_t)terminal, &trial);
    if (result != LR_GOES_ON)
        return result;
    if (trial.left == 0)
        return LR_LIMIT;
    if (handler && handler->shift(handler->context, run->position, terminal))
        return LR_STOPPED;
    for (size_t place = run->depth; trial.fresh > 0; trial.fresh--)
        run->stack[trial.base++] = run->stack[place++];
    if (!lr_put(run, trial.base, trial.state, run->position))
        return LR_NO_ROOM;
    run->depth = trial.base + 1;
    run->state = trial.action - LR_PRODUCTIONS - 1;
    run->left = trial.left - 1;
    run->position++;
    return LR_GOES_ON;
}

// Reads what `next` returns, up to the end of the input.
static inline lr_result lr_parse(lr_run *run, const lr_handler *handler, lr_terminal (*next)(void *context))
{
    lr_result result;
    do
        result = lr_push(run, handler, next(handler->context));
    while (result == LR_GOES_ON);
    return result;
}

// Lists the terminals that may come next in the steps that are left, each after a trial, and
// LR_T_END if the input may end. Returns how many they are: at most LR_TERMINALS.
static inline size_t lr_expected(lr_run *run, lr_terminal *expected)
{
    size_t count = 0;
    for (uint32_t terminal = 0; terminal < LR_TERMINALS; terminal++) {
        lr_trial trial = {run->depth, 0, run->left, run->state, 0};
        lr_result result = lr_reduce_all(run, NULL, terminal, &trial);
        if (result == LR_ACCEPTED || (result == LR_GOES_ON && trial.left > 0))
            expected[count++] = (lr_terminal)terminal;
    }
    return count;
}
