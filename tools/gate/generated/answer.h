/*
 * Answers questions by a generated header, which was included before. ANSWER is the name of the
 * function. It prints what `lrtab` prints, and for a refusal the position and what is expected.
 */
#include "answers.h"

/* The trees so far, as texts, each with the positions from which and up to which it has terminals. */
struct tree {
    char *text;
    size_t first, end;
};

static struct tree trees[LONGEST];
static size_t count;

static char *joined(const char *name, const struct tree *parts, size_t length)
{
    size_t size = strlen(name) + 5;
    for (size_t it = 0; it < length; it++)
        size += strlen(parts[it].text) + 2;
    char *text = malloc(size), *to = text + sprintf(text, "[%s: ", name);
    for (size_t it = 0; it < length; it++)
        to += sprintf(to, it + 1 < length ? "%s, " : "%s", parts[it].text);
    strcpy(to, "]");
    return text;
}

static int on_shift(void *context, size_t position, lr_terminal terminal)
{
    const char *name = lr_terminal_text(terminal);
    char *text = malloc(strlen(name) + 3);
    sprintf(text, "\"%s\"", name);
    expect(*(size_t *)context == position);
    ++*(size_t *)context;
    trees[count++] = (struct tree){text, position, position + 1};
    return 0;
}

static int on_reduce(void *context, lr_production production, size_t first, size_t end)
{
    size_t length = lr_right_length(production);
    expect(length <= count && end == *(size_t *)context);
    struct tree *parts = trees + (count - length);
    expect(first == (length ? parts[0].first : end));
    for (size_t it = 0; it < length; it++)
        expect(parts[it].end == (it + 1 < length ? parts[it + 1].first : end));
    char *text = joined(lr_nonterminal_text(lr_left_side(production)), parts, length);
    for (; length > 0; length--)
        free(trees[--count].text);
    trees[count++] = (struct tree){text, first, end};
    return 0;
}

static void print_terminal(const char *before, lr_terminal terminal, FILE *to)
{
    if (terminal == LR_T_END)
        fprintf(to, "%sEof\n", before);
    else
        fprintf(to, "%s\"%s\"\n", before, lr_terminal_text(terminal));
}

static void print_refusal(lr_run *run, lr_terminal terminal, FILE *to)
{
    lr_terminal expected[LR_TERMINALS], again[LR_TERMINALS];
    size_t found = lr_expected(run, expected);
    expect(found == lr_expected(run, again) && memcmp(expected, again, found * sizeof *expected) == 0);
    print_terminal("refused at ", terminal, to);
    fprintf(to, "%zu\n", run->position);
    for (size_t it = 0; it < found; it++)
        print_terminal("", expected[it], to);
}

void ANSWER(const struct question *question, FILE *to)
{
    size_t read = 0;
    lr_run run = {.resize = question->limit % 2 ? NULL : realloc, .left = question->limit};
    lr_entry entries[LONGEST];
    lr_handler handler = {&read, on_shift, on_reduce};
    lr_terminal terminal = LR_T_END;
    lr_result result = LR_GOES_ON;
    if (run.resize == NULL)
        run.stack = entries, run.room = LONGEST;
    expect(lr_push(&run, &handler, (lr_terminal)(LR_T_END + 1)) == LR_REFUSED);
    for (size_t it = 0; it < question->length + question->has_end && result == LR_GOES_ON; it++) {
        terminal = it < question->length ? (lr_terminal)question->terminals[it] : LR_T_END;
        result = lr_push(&run, &handler, terminal);
    }
    if (result == LR_ACCEPTED)
        fprintf(to, "%s\n", trees[0].text);
    else if (result == LR_REFUSED)
        print_refusal(&run, terminal, to);
    else
        fputs(result == LR_LIMIT ? "limit\n" : result == LR_GOES_ON ? "goes on\n" : "fault\n", to);
    expect(result != LR_ACCEPTED || count == 1);
    while (count > 0)
        free(trees[--count].text);
    if (run.resize != NULL)
        free(run.stack);
}
