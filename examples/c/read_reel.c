/* Reads a reel file into a record file through the C interface, and prints what reading answers:
 *
 *     taken T N LENGTH COUNT  T traces of N samples, the length of the record, and how many words aren't normal
 *     refused NUMBER BESIDE   the number of the cause, and what stands beside it (see aukpocket.h)
 *
 *     cc -I include examples/c/read_reel.c build/libaukpocket.a -o read_reel
 *     ./read_reel examples/sample.sgy c.record
 */
#include "aukpocket.h"

#include <inttypes.h>
#include <stdio.h>
#include <stdlib.h>

/* The whole file, or NULL where it can't be read. */
static uint8_t *load(const char *path, size_t *length)
{
    FILE *file = fopen(path, "rb");
    uint8_t *bytes = NULL;
    long end;

    if (file == NULL)
        return NULL;
    if (fseek(file, 0, SEEK_END) == 0 && (end = ftell(file)) >= 0 && fseek(file, 0, SEEK_SET) == 0) {
        *length = (size_t)end;
        /* One byte more, so that an empty file has a buffer too: no pointer may be null. */
        bytes = malloc(*length + 1);
        if (bytes != NULL && fread(bytes, 1, *length, file) != *length) {
            free(bytes);
            bytes = NULL;
        }
    }
    fclose(file);
    return bytes;
}

int main(int count, char **words)
{
    struct aukpocket_reel_answer answer;
    uint8_t *reel, *record, none[1];
    size_t reel_length;
    FILE *output;
    int written;

    if (count != 3) {
        fprintf(stderr, "usage: read_reel REEL RECORD\n");
        return 1;
    }
    reel = load(words[1], &reel_length);
    if (reel == NULL) {
        perror(words[1]);
        return 1;
    }

    /* With no room for the record, a reel that would be taken is refused by 10, with the length needed. No words are counted then. */
    answer = aukpocket_read_reel(reel, reel_length, none, 0);
    if (answer.number != 10) {
        printf("refused %" PRIu64 " %" PRIu64 "\n", answer.number, answer.beside);
        free(reel);
        return 2;
    }
    record = malloc(answer.beside);
    if (record == NULL) {
        fprintf(stderr, "no memory for a record of %" PRIu64 " bytes\n", answer.beside);
        free(reel);
        return 1;
    }
    answer = aukpocket_read_reel(reel, reel_length, record, answer.beside);

    /* A file that is there already is kept ("x"). */
    output = fopen(words[2], "wbx");
    written = output != NULL && fwrite(record, 1, answer.length, output) == answer.length;
    if (output != NULL && fclose(output) != 0)
        written = 0;
    free(record);
    free(reel);
    if (!written) {
        perror(words[2]);
        return 1;
    }
    printf("taken %" PRIu64 " %" PRIu64 " %" PRIu64 " %" PRIu64 "\n", answer.traces, answer.samples, answer.length, answer.not_normal);
    return 0;
}
