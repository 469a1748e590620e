/* Document 01's examples that have an edit list: for each its letter, a space and the list in hexadecimal. Behind them the limits of trees
 * and facts, and the two shapes that a stack could fail on: for each what it is, and the number that it gets.
 */
#include "ssr.h"

#include <stdio.h>
#include <string.h>

#include "examples.h"

/* Writes a line: the letter and a space, and the list that the job writes. What is no list has a question mark for it. */
static void print_line(const example *e)
{
    uint8_t out[64];
    ssr_job_answer a = ssr_job(
        e->directory, e->directory_length, e->words, e->words_length, (const uint8_t *)e->bytes, strlen(e->bytes),
        (const uint8_t *)e->fact_text, strlen(e->fact_text), e->tree, e->tree_length, (const uint8_t *)e->text, strlen(e->text),
        e->facts, e->facts_length, e->parses, e->parses_length, (const uint8_t *)e->parse_text, strlen(e->parse_text),
        e->candidates, e->candidates_length, 0, 0, 0, out, sizeof out);
    if (a.refusal != 0 || a.asked != 0) {
        printf("%c ?\n", e->letter);
        return;
    }
    printf("%c ", e->letter);
    for (size_t i = 0; i < a.length; i++) {
        printf("%02x", out[i]);
    }
    putchar('\n');
}

/* The text of a file, and a file's tree and facts: as many as there may be, and one more. */
static uint8_t text[65536];
static uint32_t tree[3 * 16385];
static uint32_t facts[4 * 16385];

/* The words of docs/FORMAT.md: a node with all that lies in it, a token, and a fact with its first value. */
static void lay_node(size_t at, uint32_t elements, uint32_t end)
{
    tree[3 * at] = 0x10400000 | elements;
    tree[3 * at + 1] = 0x30000000;
    tree[3 * at + 2] = 0x40000000 | end;
}

static void lay_token(size_t at, uint32_t start, uint32_t end)
{
    tree[3 * at] = 0x200c0001;
    tree[3 * at + 1] = 0x30000000 | start;
    tree[3 * at + 2] = 0x40000000 | end;
}

static void lay_fact(size_t at, uint32_t head, uint32_t first)
{
    facts[4 * at] = head;
    facts[4 * at + 1] = 0xa0000000 | first;
    facts[4 * at + 2] = 0xa0000000;
    facts[4 * at + 3] = 0xa0000000;
}

/* The number of the file's tree of so many words, over so many bytes. */
static uint32_t file(size_t words, size_t bytes)
{
    return ssr_check_file(tree, words, text, bytes, facts, 0);
}

/* Of the first words of a root over tokens of a byte each, and 0 behind them. */
static uint32_t wide(uint32_t elements, size_t words)
{
    uint32_t bytes = elements == 0 ? 0 : elements - 1;
    memset(tree, 0, sizeof tree);
    lay_node(0, elements, bytes);
    for (uint32_t i = 1; i < elements; i++) {
        lay_token(i, i - 1, i);
    }
    return file(words, bytes);
}

/* Of a root with one token. */
static uint32_t longest(uint32_t bytes)
{
    lay_node(0, 2, bytes);
    lay_token(1, 0, bytes);
    return file(6, bytes);
}

/* Of empty nodes, each in the one before, where the last ends at a byte. */
static uint32_t deep(uint32_t elements, uint32_t end)
{
    for (uint32_t i = 0; i < elements; i++) {
        lay_node(i, elements - i, i == elements - 1 ? end : 0);
    }
    return file(3 * elements, 0);
}

/* Of nodes over one byte, each in the one before, and a token in the last. */
static uint32_t deep_token(uint32_t elements)
{
    for (uint32_t i = 0; i < elements - 1; i++) {
        lay_node(i, elements - i, 1);
    }
    lay_token(elements - 1, 0, 1);
    return file(3 * elements, 1);
}

/* Of a root over empty nodes, the last of which says that it is of so many elements. */
static uint32_t flat(uint32_t last)
{
    lay_node(0, 16383, 0);
    for (uint32_t i = 1; i < 16383; i++) {
        lay_node(i, i == 16382 ? last : 1, 0);
    }
    return file(3 * 16383, 0);
}

/* Of such a tree with the first words of facts. */
static uint32_t with_facts(size_t words)
{
    flat(1);
    return ssr_check_file(tree, 3 * 16383, text, 0, facts, words);
}

/* Of imports of elements from 0 on. */
static uint32_t imports(size_t words)
{
    for (uint32_t i = 0; i < 16385; i++) {
        lay_fact(i, 0x96000000 | i, 1);
    }
    return with_facts(words);
}

/* Of the 16,383 steps of one element, in falling order but for the last. */
static uint32_t steps(uint32_t last)
{
    for (uint32_t i = 0; i < 16383; i++) {
        lay_fact(i, 0x93000001, i == 16382 ? last : 16382 - i);
    }
    return with_facts(4 * 16383);
}

static uint32_t repeated_fact(void)
{
    lay_fact(0, 0x96000001, 1);
    lay_fact(1, 0x96000001, 1);
    return with_facts(8);
}

static uint32_t fact_of_another_kind(void)
{
    lay_fact(0, 0x90000001, 1);
    return with_facts(4);
}

/* Of a template's path `x`, whose text is the first bytes of a fact text of four. */
static uint32_t path_text(uint32_t length)
{
    const uint32_t list[] = {0x20010001};
    const uint8_t x[] = {'x'}, fact_text[4] = {0};
    const uint32_t path[] = {0x10020002, 0x30000000, 0x40000001, 0x20010001, 0x30000000, 0x40000001};
    const uint32_t its_fact[] = {0x97000000, 0xa0000001, 0xa0000000, 0xa0000000 | length};
    return ssr_check_rule_tree(1, list, LENGTH(list), x, 1, SSR_SIDE_TEMPLATE, path, LENGTH(path), x, 1, its_fact, LENGTH(its_fact),
                               fact_text, sizeof fact_text);
}

static void print_number(const char *what, uint32_t number)
{
    printf("%s: %u\n", what, (unsigned)number);
}

static void print_trees(void)
{
    print_number("16383 elements", wide(16383, 49149));
    print_number("one word more", wide(16383, 49150));
    print_number("16384 elements", wide(16384, 49152));
    print_number("65535 bytes", longest(65535));
    print_number("65536 bytes", longest(65536));
    print_number("no words", wide(0, 0));
    print_number("128 nodes deep", deep(128, 0));
    print_number("129 nodes deep", deep(129, 0));
    print_number("a token at 128", deep_token(128));
    print_number("a token at 129", deep_token(129));
    print_number("16383 nodes deep", deep(16383, 0));
    print_number("the last bent", deep(16383, 1));
    print_number("16382 nodes side by side", flat(1));
    print_number("the last bent", flat(2));
}

static void print_facts(void)
{
    print_number("16383 facts", imports(65532));
    print_number("16384 facts", imports(65536));
    print_number("three words", imports(3));
    print_number("a fact repeated", repeated_fact());
    print_number("a fact out of its kind", fact_of_another_kind());
    print_number("16383 steps, falling", steps(0));
    print_number("a step missing", steps(0x3fff));
    print_number("a step repeated", steps(1));
    print_number("a text up to the end of the fact text", path_text(4));
    print_number("a text one byte longer", path_text(5));
}

int main(void)
{
    memset(text, 'x', sizeof text);
    for (size_t i = 0; i < LENGTH(examples); i++) {
        print_line(&examples[i]);
    }
    print_trees();
    print_facts();
    return 0;
}
