/* What the examples' loaders share: a parse that is asked for is in the patch, and an edit list is applied. They
 * know the patch and ssr.h.
 */
#ifndef LOADER_H
#define LOADER_H

#include "patch.h"

/* The tree of a text that is asked for; null where the patch has none. It has expressions alone. */
static inline const source *find_parse(const patch *p, uint32_t kind, const uint8_t *text, size_t length)
{
    for (size_t i = 0; i < p->parse_count && kind <= LAST_EXPRESSION; i++) {
        const source *tree = &p->parses[i];
        if (tree->text.length == length && memcmp(tree->text.at, text, length) == 0) {
            return tree;
        }
    }
    return NULL;
}

/* "Parses": the kind and how many ranges there are, the text's place in the text of all, and the ranges of
 * the tree's nodes.
 */
static inline void add_parse(source *parses, uint32_t kind, const source *tree)
{
    size_t first = parses->words.length;
    add_word(&parses->words, head(8, kind, 0));
    add_word(&parses->words, word(3, parses->text.length));
    add_bytes(&parses->text, tree->text.at, tree->text.length);
    add_word(&parses->words, word(4, parses->text.length));
    for (size_t i = 0; i < elements(tree); i++) {
        if (!is_token(tree, i)) {
            add_words(&parses->words, &tree->words.at[3 * i + 1], 2);
            parses->words.at[first] += 1;
        }
    }
}

/* Prints what is asked for, looks its parse up, and adds it to those that are handed in with the next call. */
static inline void add_asked(const patch *p, source *parses, ssr_job_answer answer, const uint8_t *out)
{
    printf("asked for a parse of kind %u: ", (unsigned)answer.kind);
    print_part("", out, 0, answer.length);
    printf("\n");
    const source *tree = find_parse(p, answer.kind, out, answer.length);
    if (tree == NULL) {
        fail("the patch has no such parse");
    }
    add_parse(parses, answer.kind, tree);
}

/* "Edit list": the value of a word, which has to be of a kind. */
static inline size_t read_word(const uint8_t *at, uint32_t kind)
{
    uint32_t w = at[0] | (uint32_t)at[1] << 8 | (uint32_t)at[2] << 16 | (uint32_t)at[3] << 24;
    if (w >> 28 != kind) {
        fail("a word of the edit list is of another kind");
    }
    return value(w);
}

/* Copies a text with the edits of a list made. Nothing is cut out of what was copied, or past the end. */
static inline void apply(const uint8_t *list, size_t length, const bytes *text, bytes *edited)
{
    size_t copied = 0;
    while (length > 0) {
        if (length < SSR_EDIT_BYTES) {
            fail("an edit is cut off");
        }
        size_t start = read_word(list, 5);
        size_t end = read_word(list + 4, 6);
        size_t bytes_of_text = read_word(list + 8, 7);
        list += SSR_EDIT_BYTES;
        length -= SSR_EDIT_BYTES;
        if (start < copied || end < start || text->length < end || length < bytes_of_text) {
            fail("an edit is out of place");
        }
        printf("bytes %u to %u: ", (unsigned)start, (unsigned)end);
        print_part("", text->at, start, end);
        print_part(" ==>> ", list, 0, bytes_of_text);
        printf("\n");
        add_bytes(edited, text->at + copied, start - copied);
        add_bytes(edited, list, bytes_of_text);
        list += bytes_of_text;
        length -= bytes_of_text;
        copied = end;
    }
    add_bytes(edited, text->at + copied, text->length - copied);
}

/* Prints the edits of a list, and a patch's file with these made. */
static inline void print_edited(const patch *p, const uint8_t *list, size_t length)
{
    static bytes edited;
    apply(list, length, &p->file.text, &edited);
    printf("\n");
    print_part("", edited.at, 0, edited.length);
}

#endif
