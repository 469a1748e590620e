/* What the examples share of a front end: the functions that lay what it knows as the words of
 * docs/FORMAT.md, by the names of that page's sections, and a lexer.
 */
#ifndef FRONT_END_H
#define FRONT_END_H

#include "ssr.h"

#include <stdio.h>
#include <stdlib.h>
#include <string.h>

/* Kinds of tokens and of nodes. */
enum { IDENT = 1, WHITESPACE = 2, COMMENT = 3, COMMA = 4, R_PAREN = 5, R_CURLY = 6, DOLLAR = 8, L_CURLY = 9,
       COLON = 10 };
enum { PATH = 2, PATH_SEGMENT = 3, NAME_REF = 4, ARG_LIST = 7, CALL_EXPR = 64, METHOD_CALL_EXPR = 65,
       LAST_EXPRESSION = 1023 };

/* Kinds of this front end's own: tokens, expressions, items, and other nodes. */
enum { COLON2 = 14, USE_KEYWORD = 15, FN_KEYWORD = 16, AMP = 166, L_PAREN = 168, STAR = 170, PLUS = 171,
       DOT = 174, SEMICOLON = 187 };
enum { PATH_EXPR = 67, BIN_EXPR = 68, REF_EXPR = 69, BLOCK_EXPR = 70 };
enum { USE = 1024, FN = 1025 };
enum { SOURCE_FILE = 2048, USE_TREE = 2049, NAME = 2050, PARAM_LIST = 2051, STMT_LIST = 2052,
       EXPR_STMT = 2053 };

/* Sorts of facts, and flags of a rule's path. */
enum { CODE_PATH = 0, RULE_PATH = 1, METHOD_CALL = 2, EXPR_TYPE = 3, QUALIFIER_TYPE = 4, NODE_MODULE = 6,
       TEMPLATE_PATH = 7 };
enum { USABLE = 1, DEFINITION = 2, ASSOCIATED_FUNCTION = 4 };

#define WORDS 1024
#define BYTES 512

typedef struct words {
    uint32_t at[WORDS];
    size_t length;
} words;

typedef struct bytes {
    uint8_t at[BYTES];
    size_t length;
} bytes;

/* A token list or a tree: words, and the text that they are about. */
typedef struct source {
    words words;
    bytes text;
} source;

/* Pairs of a pattern with its template, as they are handed in. */
typedef struct rules {
    words directory;
    words words;
    bytes bytes;
} rules;

static inline void fail(const char *why)
{
    fprintf(stderr, "%s\n", why);
    exit(1);
}

/* Any operation may refuse: ssr.h has the numbers. */
static inline void stop_if_refused(const char *operation, uint32_t refusal)
{
    if (refusal != 0) {
        fprintf(stderr, "%s: refusal %u\n", operation, (unsigned)refusal);
        exit(1);
    }
}

static inline void add_words(words *w, const uint32_t *from, size_t length)
{
    if (WORDS - w->length < length) {
        fail("too many words");
    }
    memcpy(w->at + w->length, from, length * sizeof *from);
    w->length += length;
}

static inline void add_word(words *w, uint32_t n)
{
    add_words(w, &n, 1);
}

static inline void add_bytes(bytes *b, const void *from, size_t length)
{
    if (BYTES - b->length < length) {
        fail("too many bytes");
    }
    memcpy(b->at + b->length, from, length);
    b->length += length;
}

/* "Words": four bits kind, 28 bits value; and a value of 12 bits syntax kind, 16 bits size or length. */
static inline uint32_t word(uint32_t kind, size_t value)
{
    return kind << 28 | (uint32_t)value;
}

static inline uint32_t head(uint32_t kind, uint32_t syntax_kind, size_t size)
{
    return word(kind, syntax_kind << 16 | size);
}

static inline size_t value(uint32_t w)
{
    return w & 0xfffffff;
}

/* "Tree": an element is three words, head, start and end. A token ends where its text does. */
static inline void add_token(source *tree, uint32_t kind, const char *text, size_t length)
{
    add_word(&tree->words, head(2, kind, 1));
    add_word(&tree->words, word(3, tree->text.length));
    add_bytes(&tree->text, text, length);
    add_word(&tree->words, word(4, tree->text.length));
}

/* The number of the next element. */
static inline size_t elements(const source *tree)
{
    return tree->words.length / 3;
}

/* A node holds what is added until it is closed; its size and its end are known then. Gives its number. */
static inline size_t open_node(source *tree, uint32_t kind)
{
    size_t node = elements(tree);
    add_word(&tree->words, head(1, kind, 0));
    add_word(&tree->words, word(3, tree->text.length));
    add_word(&tree->words, word(4, tree->text.length));
    return node;
}

static inline void close_node(source *tree, size_t node)
{
    tree->words.at[3 * node] |= (uint32_t)(elements(tree) - node);
    tree->words.at[3 * node + 2] = word(4, tree->text.length);
}

static inline int is_token(const source *tree, size_t element)
{
    return tree->words.at[3 * element] >> 28 == 2;
}

/* Whether an element is a node of a kind. */
static inline int is_node(const source *tree, size_t element, uint32_t kind)
{
    return tree->words.at[3 * element] >> 16 == head(1, kind, 0) >> 16;
}

/* "Facts": a sort and an element, then three values. */
static inline void add_fact(words *facts, uint32_t sort, size_t element, size_t a, size_t b, size_t c)
{
    add_word(facts, word(9, sort << 24 | element));
    add_word(facts, word(10, a));
    add_word(facts, word(10, b));
    add_word(facts, word(10, c));
}

/* "Rules": a row of the directory for each pair, all 0 at first: a part that is not added is absent. */
static inline void add_row(rules *r)
{
    for (size_t entry = 0; entry < SSR_ROW_LENGTHS; entry++) {
        add_word(&r->directory, 0);
    }
}

static inline uint32_t *entry_of_last_row(rules *r, size_t entry)
{
    return &r->directory.at[r->directory.length - SSR_ROW_LENGTHS + entry];
}

/* An entry of a row is a part's length. Parts are added in the order of their entries. */
static inline void add_word_part(rules *r, size_t entry, const words *part)
{
    *entry_of_last_row(r, entry) = (uint32_t)part->length;
    add_words(&r->words, part->at, part->length);
}

static inline void add_byte_part(rules *r, size_t entry, const bytes *part)
{
    *entry_of_last_row(r, entry) = (uint32_t)part->length;
    add_bytes(&r->bytes, part->at, part->length);
}

/* A side's token list, and the code that its trees were parsed from, which ssr_raw_code writes. */
static inline void add_side(rules *r, size_t side, const source *list, const bytes *code)
{
    if (side == SSR_SIDE_TEMPLATE) {
        *entry_of_last_row(r, 3) = 1; /* a template is given */
    }
    add_word_part(r, 4 * side, &list->words);
    add_byte_part(r, 4 * side + 1, &list->text);
    add_byte_part(r, 4 * side + 2, code);
}

/* A side's tree of one form with its facts; a form that is not added is absent. */
static inline void add_form(rules *r, size_t side, size_t form, const source *tree, const words *facts)
{
    add_word_part(r, 7 + 4 * form + 2 * side, &tree->words);
    add_word_part(r, 8 + 4 * form + 2 * side, facts);
}

/* "Token list": a word a token, and the texts behind each other. */
static inline void add_to_list(source *list, uint32_t kind, const char *text, size_t length)
{
    add_word(&list->words, head(2, kind, length));
    add_bytes(&list->text, text, length);
}

/* The lexer: these bytes are a token each, the others are names. */
static inline void lex(source *list, const char *text)
{
    static const char single[] = " ,)}${:(.";
    static const uint32_t kinds[] = {WHITESPACE, COMMA, R_PAREN, R_CURLY, DOLLAR, L_CURLY, COLON, L_PAREN, DOT};
    while (*text != '\0') {
        const char *found = strchr(single, *text);
        size_t length = found == NULL ? strcspn(text, single) : 1;
        add_to_list(list, found == NULL ? IDENT : kinds[found - single], text, length);
        text += length;
    }
}

static inline void print_part(const char *label, const uint8_t *text, size_t start, size_t end)
{
    printf("%s%.*s", label, (int)(end - start), (const char *)text + start);
}

#endif
