/*
 * own QUESTIONS
 *
 * Checks the tables that the library makes, with items. A question is a grammar text and a start
 * symbol. The tables must be faithful. With another number before the first token set, or without the
 * last numbers, they must not be, since tables are laid out in one way. They must be faithful if the
 * tokens of each set descend, since a set may have its tokens in any order.
 */
#include "questions.h"

enum { ROOM = 1 << 22, CUTS = 20, SETS = 6, FIRST = 8 };

static uint32_t numbers[ROOM];
static uint8_t message[1000];

/* The status of a check of the first numbers. */
static uint8_t checked(const struct question *it, size_t count, size_t number)
{
    size_t length = 0;
    const uint8_t status = lr1_check(it->text.bytes, it->text.length, it->words.bytes, it->words.length,
                                     numbers, count, message, sizeof message, &length);
    if ((status == LR1_OK) != (length == 0))
        fault(number, "a message beside faithful tables, or none beside others");
    return status;
}

/* How many numbers are before the first token set, or before the first state if there is no set. */
static size_t layout(size_t count)
{
    const size_t end = count > FIRST ? numbers[FIRST] : count;
    return end < count ? end : count;
}

/* Changes each number of the layout by one. */
static size_t change_each(const struct question *it, size_t count, size_t number)
{
    const size_t end = layout(count);
    for (size_t at = 0; at < end; at++) {
        for (int by = -1; by <= 1; by += 2) {
            numbers[at] += (uint32_t)by;
            if (checked(it, count, number) == LR1_OK)
                fault(number, "tables with a changed number are faithful");
            numbers[at] -= (uint32_t)by;
        }
    }
    return 2 * end;
}

/* Leaves out the last numbers, in some steps. */
static void cut(const struct question *it, size_t count, size_t number)
{
    for (size_t part = 0; part < CUTS; part++)
        if (checked(it, count * part / CUTS, number) == LR1_OK)
            fault(number, "tables that are cut off are faithful");
}

/* Reverses the tokens of each set of so many numbers. */
static void reverse_sets(size_t length)
{
    for (size_t set = 0; set < numbers[SETS]; set++) {
        const size_t place = numbers[FIRST + set];
        for (size_t low = place + 1, high = place + numbers[place]; low < high && high < length; low++, high--) {
            const uint32_t kept = numbers[low];
            numbers[low] = numbers[high];
            numbers[high] = kept;
        }
    }
}

int main(int count, char **arguments)
{
    if (count != 2)
        return 2;
    struct part rest = read_file(arguments[1]);
    const uint8_t *questions = rest.bytes;
    size_t number = 0, faithful = 0, changed = 0;
    for (; rest.length > 0; number++) {
        struct question it = take_question(&rest);
        size_t length = 0;
        const uint8_t status = lr1_tables(it.text.bytes, it.text.length, it.words.bytes, it.words.length,
                                          it.canonical, true, numbers, ROOM, &length);
        if (length > ROOM)
            fault(number, "tables that are too long for this test");
        if (status != LR1_OK)
            continue;
        if (checked(&it, length, number) != LR1_OK)
            fault(number, "its own tables are refused");
        changed += change_each(&it, length, number);
        cut(&it, length, number);
        reverse_sets(length);
        if (checked(&it, length, number) != LR1_OK)
            fault(number, "tables are refused if tokens descend");
        faithful++;
    }
    free((void *)questions);
    printf("%zu questions, %zu tables, %zu changed numbers\n", number, faithful, changed);
    return 0;
}
