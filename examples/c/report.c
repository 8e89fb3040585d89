/* Writes the report of the tree that is read, as the report program does: report [WORDS, one a line] <TREE */
#include <stdio.h>
#include <stdlib.h>
#include <string.h>

#include "bolgwyr.h"

static uint8_t tree[67108864 + 1];
static uint8_t message[BOLGWYR_MESSAGE_SIZE];

int main(int argc, char **argv) {
    const char *words = argc > 1 ? argv[1] : "";
    size_t tree_len = fread(tree, 1, sizeof tree, stdin);
    size_t size = tree_len + 1;
    uint8_t *report = malloc(size);
    struct bolgwyr_answer answer = {BOLGWYR_MEMORY, 0, 0};
    while (report != NULL) {
        answer = bolgwyr_report(tree, tree_len, (const uint8_t *)words, strlen(words), report, size, message, sizeof message);
        if (answer.report_len <= size) {
            fwrite(report, 1, answer.report_len, stdout);
            break;
        }
        free(report);
        size = answer.report_len;
        report = malloc(size);
    }
    fwrite(message, 1, answer.message_len, stderr);
    free(report);
    return (int)answer.status;
}
