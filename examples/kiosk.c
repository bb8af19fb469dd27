/* A kiosk in small: card replies are matched a few steps at a time, and between two grants the keypad is served
 * and the try counter lowered. The reply with a length byte of zero that once sent a reader round and round is
 * among them: its run ends like every other.
 *
 *   kiosk GRAMMAR < REPLIES      one reply to a line, in hexadecimal
 *
 * Of a card's response (grammars/iso7816.dogma) it tells what stands in it, by the names that `names` printed.
 */
#include "songrafter.h"
#include "grammars/iso7816.h"

#include <stdio.h>
#include <string.h>

enum { STEPS_A_SLICE = 3, TRIES = 3 };

static uint32_t table[SONGRAFTER_TABLE_WORDS];
static uint32_t reading[SONGRAFTER_READING_WORDS];
static uint8_t text[SONGRAFTER_TEXT_BYTES + 1];
static uint8_t run[SONGRAFTER_RUN_BYTES];

static unsigned keypad_polls;
static unsigned tries_left = TRIES;
static uint64_t weight;

/* What must never wait for a parser. */
static void serve_keypad(void) { keypad_polls++; }

static int admit(const char *path) {
    uint64_t answer[SONGRAFTER_ANSWER_WORDS] = {0};
    FILE *file = fopen(path, "rb");
    size_t length = 0;
    size_t number;
    if (file != NULL) {
        length = fread(text, 1, sizeof text, file);
        fclose(file);
    }
    number = songrafter_admit(text, length, table, SONGRAFTER_TABLE_WORDS, answer, SONGRAFTER_ANSWER_WORDS);
    if (number == SONGRAFTER_OK) {
        weight = answer[0];
        printf("grammar admitted, weight %llu\n", (unsigned long long)weight);
        return 1;
    }
    printf("grammar refused: %zu at byte %llu: %s\n", number, (unsigned long long)answer[0], songrafter_refusal_text(number));
    return 0;
}

static int digit(int c) {
    if (c >= '0' && c <= '9') return c - '0';
    if (c >= 'a' && c <= 'f') return c - 'a' + 10;
    if (c >= 'A' && c <= 'F') return c - 'A' + 10;
    return -1;
}

/* The bytes of a line, or -1. */
static int bytes_of(const char *line, uint8_t *frame, size_t room) {
    size_t n = 0;
    while (digit((unsigned char)line[0]) >= 0 && digit((unsigned char)line[1]) >= 0) {
        if (n == room) return -1;
        frame[n++] = (uint8_t)(16 * digit((unsigned char)line[0]) + digit((unsigned char)line[1]));
        line += 2;
    }
    return line[strspn(line, "\r\n")] == '\0' ? (int)n : -1;
}

/* What a card's response says: a variable by its number, fields by their construct numbers. */
static void response(const uint8_t *frame, size_t n) {
    uint64_t field[SONGRAFTER_FIELD_WORDS];
    uint64_t fields = songrafter_fields(run, sizeof run);
    uint64_t k;
    printf("    %lld bytes of data", (long long)songrafter_value(run, sizeof run, RESPONSE_LENGTH_VARIABLE));
    for (k = 0; k < fields; k++) {
        size_t number = songrafter_field(table, SONGRAFTER_TABLE_WORDS, frame, n, reading, SONGRAFTER_READING_WORDS, (size_t)k, field, SONGRAFTER_FIELD_WORDS);
        if (number != SONGRAFTER_OK) {
            printf(", %s", songrafter_refusal_text(number));
            break;
        }
        switch (field[SONGRAFTER_FIELD_CONSTRUCT]) {
        case MORE_DATA_UINT_2_CONSTRUCT:
            printf(", %llu more to fetch", (unsigned long long)field[SONGRAFTER_FIELD_VALUE]);
            break;
        case TRIES_LEFT_UINT_3_CONSTRUCT:
            printf(", %llu tries left on the card", (unsigned long long)field[SONGRAFTER_FIELD_VALUE]);
            break;
        }
    }
    printf("\n");
}

/* One reply: the try counter goes down before anything is compared, and the keypad is served after every slice. */
static void reply(const char *line) {
    uint8_t frame[SONGRAFTER_FRAME_BYTES];
    uint64_t taken[1] = {0};
    unsigned slices = 0;
    size_t number;
    int n = bytes_of(line, frame, sizeof frame);
    if (n < 0) {
        printf("reply is no frame\n");
        return;
    }
    tries_left--;
    number = songrafter_open(table, SONGRAFTER_TABLE_WORDS, frame, (size_t)n, reading, SONGRAFTER_READING_WORDS, run, sizeof run);
    while (number == SONGRAFTER_OK && songrafter_verdict(run, sizeof run) == SONGRAFTER_UNDECIDED) {
        number = songrafter_grant(table, SONGRAFTER_TABLE_WORDS, frame, (size_t)n, reading, SONGRAFTER_READING_WORDS, run, sizeof run, STEPS_A_SLICE, taken, 1);
        serve_keypad();
        slices++;
    }
    if (number != SONGRAFTER_OK) {
        printf("refused %zu: %s\n", number, songrafter_refusal_text(number));
        return;
    }
    if (songrafter_verdict(run, sizeof run) == SONGRAFTER_MATCH) tries_left = TRIES;
    printf("%s after %llu steps in %u slices, %llu fields, tries left %u\n",
           songrafter_verdict_text(songrafter_verdict(run, sizeof run)),
           (unsigned long long)songrafter_steps(run, sizeof run), slices,
           (unsigned long long)songrafter_fields(run, sizeof run), tries_left);
    if (weight == RESPONSE_WEIGHT && songrafter_verdict(run, sizeof run) == SONGRAFTER_MATCH) response(frame, (size_t)n);
}

int main(int argc, char **argv) {
    char line[2 * SONGRAFTER_FRAME_BYTES + 4];
    if (argc != 2 || !admit(argv[1])) return 1;
    while (tries_left > 0 && fgets(line, sizeof line, stdin) != NULL) reply(line);
    printf("keypad served %u times\n", keypad_polls);
    return 0;
}
