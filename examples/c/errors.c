/* Prints the parse errors of a page, as a compiler prints its own: the file, the line from 1, and the byte in the page from 0. */
#include "jeanzircon_data.h"
#include <stdio.h>

static void print_errors(const char *name, const uint8_t *page, const jz_doc *doc) {
    size_t i, at = 0, line = 1;
    for (i = 0; i < doc->error_count; i++) {
        const jz_error *error = &doc->errors[i];
        while (at < error->at) line += page[at++] == '\n';
        printf("%s:%lu: byte %lu: %s\n", name, (unsigned long)line, (unsigned long)error->at, jz_error_name(error->code));
    }
}

int main(int count, char **words) {
    jz_options options = JZ_STANDARD;
    jz_answer answer;
    jz_doc doc;
    size_t length;
    uint8_t *page = count == 2 ? jz_read_file(words[1], &length) : NULL;
    if (!page || !jz_draw_keys(&options)) {
        fprintf(stderr, "errors: name a page that can be read\n");
        return 3;
    }
    if (jz_parse(page, length, &options, &doc, &answer) != JZ_OK)
        fprintf(stderr, "refused: %s %s at %lu\n", jz_status_name(answer.status), jz_detail_name(&answer), (unsigned long)answer.at);
    else
        print_errors(words[1], page, &doc);
    jz_free(&doc);
    free(page);
    return answer.status == JZ_OK ? 0 : 2;
}
