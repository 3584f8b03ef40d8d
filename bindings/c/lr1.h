/*
 * LR(1) tables of a grammar, from memory to memory.
 *
 * Each call is safe for all bytes. A call keeps nothing, so calls may run at the same time in
 * different threads. Memory comes from malloc, realloc and free, and all of it is freed before a
 * call returns. A call must not be made from a signal handler.
 *
 * The code of the calls is proved. That this header describes them is only tested.
 */
#ifndef LR1_H
#define LR1_H

#include <stdbool.h>
#include <stddef.h>
#include <stdint.h>

#ifdef __cplusplus
extern "C" {
#endif

/* The version of the calls of this header. */
#define LR1_VERSION 1

/* What a call returns. */
enum lr1_status {
    /* There are tables, a parse, an action or a goto, or nothing to report, or tables are faithful. */
    LR1_OK = 0,
    /* There are conflicts or warnings, there is no action or goto, a parse was refused or reached its
     * limit, or tables do not pass the check. */
    LR1_REFUSED = 1,
    /* The text, the words or the start symbol have a fault, or the numbers are not those of tables. */
    LR1_FAULT = 2,
    /* malloc or realloc returned a null pointer. */
    LR1_NO_MEMORY = 3
};

/* Returns the version of the calls that are linked. It differs from LR1_VERSION if the meaning of a
 * call has changed. */
uint32_t lr1_version(void);

/*
 * Writes what the program lrtab or lrshow prints of a grammar.
 *
 * text       the grammar, one production in a line:
 *                S = E
 *                E = E "+" "n"
 *                E = "n"
 * words      the words after FILE on the command line of the program, in UTF-8, with a byte 0
 *            between two of them: START, what is asked, and its arguments. Some questions on S are
 *                "S\0parse\0" "100\0n\0+\0n"   a parse of the tokens n + n in at most 100 steps
 *                "S\0json"                     the tables or the conflicts, for programs
 *                "S\0report"                   the tables or the conflicts, for people
 *                "S\0explain"                  the conflicts, with examples of input
 *                "S\0conflicts"                the causes of the conflicts
 *                "S\0check"                    faults and warnings
 *                "S\0html"                     a page for a browser
 * canonical  true for the canonical tables, and false for lane tables if the grammar has such
 * out, room  where the answer goes, and how many bytes there are
 * length     gets the number of bytes of the whole answer
 *
 * The answer is UTF-8 without a byte 0 at its end. If it has at most `room` bytes, all of it is in
 * `out`. If not, its first `room` bytes are, and a call with a room of *length bytes gets all of it.
 * The rest of `out` keeps its bytes. For a status of LR1_FAULT the answer is a message.
 *
 * Returns an enum lr1_status.
 *
 * No pointer may be null, also for 0 bytes. The memory of `out` and of `length` overlaps no other
 * memory of the call. A text and words have less than 2^63 bytes.
 */
uint8_t lr1_ask(const uint8_t *text, size_t text_length, const uint8_t *words, size_t words_length,
                bool canonical, uint8_t *out, size_t room, size_t *length);

/*
 * Writes the LR(1) tables of a grammar as numbers, by which a program parses without this library.
 * The page docs/FORMATS.md says under "Tables as numbers" what each number means, and how to parse.
 *
 * text       the grammar, as for lr1_ask
 * start      the name of the start symbol, in UTF-8
 * canonical  true for the canonical tables, and false for lane tables if the grammar has such
 * items      true if each state has its items in the numbers, as lr1_check needs them
 * out, room  where the numbers go, and how many there is room for
 * length     gets how many numbers the tables have
 *
 * If the tables have at most `room` numbers, all of them are in `out`. If not, the first `room` are,
 * and a call with room for *length numbers gets all of them. The rest of `out` keeps its numbers.
 *
 * Returns LR1_OK for tables. *length is 0 otherwise: LR1_REFUSED for conflicts, LR1_FAULT for a fault
 * of the text or the start symbol, and LR1_NO_MEMORY. lr1_ask says more of conflicts and faults. The
 * same is asked of the caller as for lr1_ask.
 */
uint8_t lr1_tables(const uint8_t *text, size_t text_length, const uint8_t *start, size_t start_length,
                   bool canonical, bool items, uint32_t *out, size_t room, size_t *length);

/*
 * Checks whether tables are faithful to a grammar, whatever program made them. The page
 * docs/FORMATS.md says under "The check of tables" what that means.
 *
 * text            the grammar, as for lr1_ask
 * start           the name of the start symbol, in UTF-8
 * numbers, count  the tables as numbers with items, and how many numbers there are
 * out, room       where a message goes, and how many bytes there are
 * length          gets the number of bytes of the whole message, as for lr1_ask
 *
 * Returns LR1_OK for faithful tables, for which there is no message, and LR1_REFUSED for others. It
 * returns LR1_FAULT for a fault of the text, the start symbol or the numbers. The message has the
 * place of a wrong number. The same is asked of the caller as for lr1_ask.
 */
uint8_t lr1_check(const uint8_t *text, size_t text_length, const uint8_t *start, size_t start_length,
                  const uint32_t *numbers, size_t count, uint8_t *out, size_t room, size_t *length);

/* The first number of a pair of lr1_action and lr1_parse. */
enum lr1_step {
    /* A shift. */
    LR1_SHIFT = 0,
    /* A reduction. */
    LR1_REDUCE = 1,
    /* The parse was refused. The next number is the state on top of the stack. */
    LR1_STOP = 2,
    /* The parse reached its limit. The next number is the state on top of the stack. */
    LR1_LIMIT = 3
};

/*
 * Writes what a state does on a token.
 *
 * tables     the numbers that lr1_tables wrote, and how many there are
 * state      the number of a state; a parse begins in state 0
 * token      the number of a terminal, or how many terminals there are for the end of the input
 * out, room  where the numbers go, and how many there is room for; there are 4 at most
 * length     gets how many numbers there are
 *
 * The numbers are LR1_SHIFT and the next state, or LR1_REDUCE, the production, the nonterminal on its
 * left side, and the length of its right side. The call takes no memory. Its time grows with the
 * numbers of the one state.
 *
 * Returns LR1_OK for an action, LR1_REFUSED if there is none, and LR1_FAULT if the numbers are not
 * those of tables that have the state and the token. *length is 0 unless it is LR1_OK.
 *
 * The call looks only at the numbers that it needs. So wrong numbers may have an action. No numbers
 * make it read or write elsewhere. The same is asked of the caller as for lr1_ask, and `tables` has
 * less than 2^61 numbers.
 */
uint8_t lr1_action(const uint32_t *tables, size_t tables_length, uint32_t state, uint32_t token,
                   uint32_t *out, size_t room, size_t *length);

/*
 * Writes the state to which a state leads on a nonterminal.
 *
 * nonterminal  the number of a nonterminal
 * out, room    where the number of the state goes; there is 1 at most
 *
 * Returns LR1_OK for a goto, LR1_REFUSED if there is none, and LR1_FAULT if the numbers are not those
 * of tables that have the state and the nonterminal. The rest is as for lr1_action.
 */
uint8_t lr1_goto(const uint32_t *tables, size_t tables_length, uint32_t state, uint32_t nonterminal,
                 uint32_t *out, size_t room, size_t *length);

/*
 * Parses tokens by tables as numbers.
 *
 * tables     the numbers that lr1_tables wrote, and how many there are
 * tokens     the numbers of the terminals of the input, and how many there are
 * limit      how many steps the parse may make: each shift and each reduction is one
 * out, room  where the numbers of the answer go, and how many there is room for
 * length     gets how many numbers the answer has
 * read       gets how many tokens were shifted
 *
 * The answer has two numbers for each step: LR1_SHIFT and the token, or LR1_REDUCE and the
 * production. The reductions are those of a rightmost derivation, backwards. If the parse was refused
 * or reached its limit, two numbers more say why, as enum lr1_step has them. The refused token is
 * tokens[*read], or the end of the input if *read is tokens_length.
 *
 * If the answer has at most `room` numbers, all of it is in `out`. If not, its first `room` numbers
 * are, and a call with room for *length numbers gets all of it. The rest of `out` keeps its numbers.
 *
 * Returns LR1_OK for a parse, LR1_REFUSED for a refusal and for the limit, LR1_FAULT if a token is no
 * terminal or the numbers are not those of tables, and LR1_NO_MEMORY. For the last two *length and
 * *read are 0. The same is asked of the caller as for lr1_action.
 */
uint8_t lr1_parse(const uint32_t *tables, size_t tables_length, const uint32_t *tokens, size_t tokens_length,
                  size_t limit, uint32_t *out, size_t room, size_t *length, size_t *read);

/*
 * Writes the tokens that may come after tokens, by tables as numbers. After a refusal by lr1_parse,
 * the tokens before the refused one have the tokens that were expected.
 *
 * tokens     the numbers of the terminals that were read, and how many there are
 * limit      how many steps there may be for these tokens and each token that is tried after them
 * out, room  where the tokens go, and how many there is room for
 * length     gets how many tokens may come
 *
 * The tokens ascend. The end of the input is the number of terminals. The call looks up the action of
 * each terminal, and tries those that have one on a copy of the stack. So its time grows with the
 * number of terminals, which is tables[3].
 *
 * Returns LR1_OK for the tokens, LR1_REFUSED if the given ones are refused or there are more steps
 * than the limit allows, LR1_FAULT and LR1_NO_MEMORY. *length is 0 unless it is LR1_OK. The rest is as
 * for lr1_parse.
 */
uint8_t lr1_expected(const uint32_t *tables, size_t tables_length, const uint32_t *tokens,
                     size_t tokens_length, size_t limit, uint32_t *out, size_t room, size_t *length);

#ifdef __cplusplus
}
#endif

#endif
