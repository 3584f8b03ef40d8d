/*
 * Prints the status and the numbers of the tables of a grammar: numbers TEXT START. With a third word
 * the numbers have items. Each smaller room must get the first numbers. Numbers after those of the
 * tables must keep their values.
 */
#include <lr1.h>
#include <stdio.h>
#include <stdlib.h>
#include <string.h>

enum { BEFORE = 170, MORE = 3 };

static bool items = false;

static uint8_t called(char **words, uint32_t *out, size_t room, size_t *length)
{
    return lr1_tables((const uint8_t *)words[1], strlen(words[1]), (const uint8_t *)words[2], strlen(words[2]),
                      true, items, out, room, length);
}

static void expect(bool holds, const char *text, size_t room)
{
    if (holds)
        return;
    fprintf(stderr, "%s, with room for %zu numbers\n", text, room);
    exit(1);
}

/* A block of its own for so many numbers. */
static uint32_t *block(size_t room)
{
    uint32_t *numbers = malloc(room * sizeof *numbers + (room == 0));
    expect(numbers != NULL, "no memory", room);
    for (size_t at = 0; at < room; at++)
        numbers[at] = BEFORE;
    return numbers;
}

int main(int count, char **words)
{
    size_t length = 0, again = 0;
    expect(count == 3 || count == 4, "the words are TEXT START [items]", 0);
    items = count == 4;
    uint32_t *none = block(0);
    const uint8_t status = called(words, none, 0, &length);
    free(none);
    uint32_t *whole = block(length + MORE);
    expect(called(words, whole, length + MORE, &again) == status && again == length, "another answer", length + MORE);
    for (size_t at = length; at < length + MORE; at++)
        expect(whole[at] == BEFORE, "a number after the answer was written", length + MORE);
    for (size_t room = 0; room <= length; room++) {
        uint32_t *part = block(room);
        expect(called(words, part, room, &again) == status && again == length, "another answer", room);
        expect(memcmp(part, whole, room * sizeof *part) == 0, "other numbers", room);
        free(part);
    }
    printf("%d", status);
    for (size_t at = 0; at < length; at++)
        printf(" %lu", (unsigned long)whole[at]);
    free(whole);
    return 0;
}
