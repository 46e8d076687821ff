/*
 * Ply 10 must not arrive as ply 1 and a stray 0: classifies the row of a state that loops on
 * digits, and skips the ply's number with its run; then decodes a table of one state.
 * rust/lexer-dfa/examples/ply.rs prints the same.
 *
 *     ./build
 *     gcc -O2 -Iinclude examples/ply.c target/liblexer_dfa.a -o target/ply
 *     target/ply
 */
#include "lexer_dfa.h"

#include <stdio.h>
#include <string.h>

static const char *class_names[] = {"Whitespace", "Number", "Identifier", "Other"};

static int refused(uint32_t number, size_t place)
{
    printf("refusal %u at %zu\n", (unsigned)number, place);
    return 1;
}

/* One mode, and one state that loops on every ASCII symbol: the tag, then the eight sections. */
static int decode_a_table(void)
{
    const uint32_t dead = 65535, none = 0xFFFFFFFF;
    const uint32_t front[] = {LEXER_DFA_TABLE_TAG, 1, 0, 1, 0, 0, dead, none, 1, 1, 1};
    const uint32_t back[] = {1, 0, 0, 1, none, 0, 0};
    static uint32_t words[82]; /* the row between them is all 0 */
    static uint32_t room[LEXER_DFA_ROOM_NUMBERS];
    memcpy(words, front, sizeof front);
    memcpy(words + 75, back, sizeof back);

    DecodeAnswer table = lexer_dfa_decode(words, 82, room, LEXER_DFA_ROOM_NUMBERS);
    if (table.number != LEXER_DFA_ACCEPTED)
        return refused(table.number, table.place);
    printf("table: modes %u, states %u, words %zu\n", (unsigned)table.modes,
           (unsigned)table.states, table.words);
    DecodeAnswer cut = lexer_dfa_decode(words, 81, room, LEXER_DFA_ROOM_NUMBERS);
    if (cut.number == LEXER_DFA_SHORT)
        printf("81 words: refusal %u SHORT at %zu\n", (unsigned)cut.number, cut.place);
    return 0;
}

int main(void)
{
    /* State 7 loops on the digits; every other symbol leads to state 0. */
    uint16_t row[128] = {0};
    for (int symbol = '0'; symbol <= '9'; symbol++)
        row[symbol] = 7;

    RunAnswer run = lexer_dfa_classify(row, 128, 7);
    if (run.number != LEXER_DFA_ACCEPTED)
        return refused(run.number, run.place);
    uint32_t words[3] = {run.first, run.second, run.third};
    printf("run words: [");
    for (size_t i = 0; i < run.length; i++)
        printf("%s%u", i == 0 ? "" : ", ", (unsigned)words[i]);
    printf("]\n");

    ClassAnswer of_run = lexer_dfa_class(words, run.length);
    if (of_run.number != LEXER_DFA_ACCEPTED)
        return refused(of_run.number, of_run.place);
    printf("run class: %s\n", class_names[of_run.range_class]);

    const char *lines[] = {"10 ply", "10"};
    for (size_t i = 0; i < 2; i++) {
        const char *line = lines[i];
        ScanAnswer scan =
            lexer_dfa_scan(words, run.length, (const uint8_t *)line, strlen(line));
        if (scan.number != LEXER_DFA_ACCEPTED)
            return refused(scan.number, scan.place);
        if (!scan.ran) {
            printf("\"%s\": no run\n", line);
            continue;
        }
        printf("\"%s\": skips \"%.*s\", ", line, (int)scan.bytes, line);
        if (scan.found_exit)
            printf("exit before \"%s\"\n", line + scan.bytes);
        else
            printf("no exit\n");
    }

    /* A row is 128 targets long; anything else is refused, by number and place. */
    RunAnswer wrong = lexer_dfa_classify(row, 127, 7);
    if (wrong.number == LEXER_DFA_FIELD)
        printf("127 targets: refusal %u FIELD at %zu\n", (unsigned)wrong.number, wrong.place);
    return decode_a_table();
}
