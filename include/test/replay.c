/* Holds include/ssr.h against the archive: calls the exported function of each record of the sample that
 * crates/replay stores, on standard input, and compares every field of the answer and every byte of the
 * buffer with the record's. It prints what the program crates/replay prints; what is wrong with a record goes
 * to standard error. crates/replay/src/records.rt says what a record is.
 */
#include "ssr.h"

#include <stdio.h>
#include <stdlib.h>
#include <string.h>

/* The layout of each struct by the x86-64 ABI: an array of negative size does not compile. */
#define HAS_SIZE(type, size) typedef char size_of_##type[sizeof(type) == (size) ? 1 : -1]
#define HAS_FIELD(type, field, at, size) \
    typedef char place_of_##type##_##field[offsetof(type, field) == (at) ? 1 : -1]; \
    typedef char size_of_##type##_##field[sizeof(((type *)0)->field) == (size) ? 1 : -1]

HAS_SIZE(ssr_placeholder, 24);
HAS_FIELD(ssr_placeholder, start, 0, 8);
HAS_FIELD(ssr_placeholder, end, 8, 8);
HAS_FIELD(ssr_placeholder, constraints, 16, 8);

HAS_SIZE(ssr_read_tokens_answer, 272);
HAS_FIELD(ssr_read_tokens_answer, refusal, 0, 4);
HAS_FIELD(ssr_read_tokens_answer, count, 8, 8);
HAS_FIELD(ssr_read_tokens_answer, placeholders, 16, 192);
HAS_FIELD(ssr_read_tokens_answer, constraints, 208, 8);
HAS_FIELD(ssr_read_tokens_answer, nots, 216, 50);

HAS_SIZE(ssr_raw_code_answer, 16);
HAS_FIELD(ssr_raw_code_answer, refusal, 0, 4);
HAS_FIELD(ssr_raw_code_answer, length, 8, 8);

HAS_SIZE(ssr_build_rules_answer, 48);
HAS_FIELD(ssr_build_rules_answer, refusal, 0, 4);
HAS_FIELD(ssr_build_rules_answer, rules, 8, 8);
HAS_FIELD(ssr_build_rules_answer, found, 16, 4);
HAS_FIELD(ssr_build_rules_answer, pair, 24, 8);
HAS_FIELD(ssr_build_rules_answer, form, 32, 8);
HAS_FIELD(ssr_build_rules_answer, template_tree, 40, 4);

HAS_SIZE(ssr_resolve_answer, 36);
HAS_FIELD(ssr_resolve_answer, refusal, 0, 4);
HAS_FIELD(ssr_resolve_answer, found, 4, 4);
HAS_FIELD(ssr_resolve_answer, resolved, 8, 4);
HAS_FIELD(ssr_resolve_answer, resolution, 12, 4);
HAS_FIELD(ssr_resolve_answer, call, 16, 4);
HAS_FIELD(ssr_resolve_answer, function, 20, 4);
HAS_FIELD(ssr_resolve_answer, typed, 24, 4);
HAS_FIELD(ssr_resolve_answer, qualifier_type, 28, 4);
HAS_FIELD(ssr_resolve_answer, contains_self, 32, 4);

HAS_SIZE(ssr_binding, 20);
HAS_FIELD(ssr_binding, bound, 0, 4);
HAS_FIELD(ssr_binding, start, 4, 4);
HAS_FIELD(ssr_binding, end, 8, 4);
HAS_FIELD(ssr_binding, stars, 12, 4);
HAS_FIELD(ssr_binding, self_kind, 16, 4);

HAS_SIZE(ssr_match_node_answer, 176);
HAS_FIELD(ssr_match_node_answer, refusal, 0, 4);
HAS_FIELD(ssr_match_node_answer, matched, 4, 4);
HAS_FIELD(ssr_match_node_answer, length, 8, 8);
HAS_FIELD(ssr_match_node_answer, bindings, 16, 160);

HAS_SIZE(ssr_job_answer, 24);
HAS_FIELD(ssr_job_answer, refusal, 0, 4);
HAS_FIELD(ssr_job_answer, asked, 4, 4);
HAS_FIELD(ssr_job_answer, kind, 8, 4);
HAS_FIELD(ssr_job_answer, length, 16, 8);

/* Records. */

/* The most slices of a call. */
#define BLOCKS 11

/* What is left of a record, and the blocks that its parts were copied into. */
typedef struct record {
    const uint8_t *at;
    size_t left;
    int cut; /* 1 if a part was cut off, or has no whole words */
    void *blocks[BLOCKS];
    size_t count;
} record;

typedef struct byte_slice {
    uint8_t *at;
    size_t length;
} byte_slice;

typedef struct word_slice {
    uint32_t *at;
    size_t length;
} word_slice;

typedef struct part {
    const uint8_t *at;
    size_t length;
} part;

static void fail(const char *why)
{
    fprintf(stderr, "%s\n", why);
    exit(1);
}

/* The number in four bytes, the lowest first. */
static uint32_t number_at(const uint8_t *s)
{
    return s[0] | (uint32_t)s[1] << 8 | (uint32_t)s[2] << 16 | (uint32_t)s[3] << 24;
}

/* The next part, empty where it is cut off. */
static part next_part(record *r)
{
    part p = {r->at, 0};
    if (r->left < 4 || r->left - 4 < number_at(r->at)) {
        r->cut = 1;
        return p;
    }
    p.length = number_at(r->at);
    p.at = r->at + 4;
    r->at = p.at + p.length;
    r->left -= 4 + p.length;
    return p;
}

/* A block of exactly so many bytes, so that a memory checker sees every access beyond. */
static void *new_block(record *r, size_t size)
{
    void *block = malloc(size == 0 ? 1 : size);
    if (block == NULL || r->count == BLOCKS) {
        fail("no room for a part");
    }
    r->blocks[r->count] = block;
    r->count += 1;
    return block;
}

static void free_blocks(record *r)
{
    while (r->count > 0) {
        r->count -= 1;
        free(r->blocks[r->count]);
    }
}

static byte_slice next_bytes(record *r)
{
    part p = next_part(r);
    byte_slice bytes = {new_block(r, p.length), p.length};
    memcpy(bytes.at, p.at, p.length);
    return bytes;
}

static word_slice next_words(record *r)
{
    part p = next_part(r);
    word_slice words = {new_block(r, p.length), p.length / 4};
    for (size_t i = 0; i < words.length; i++) {
        words.at[i] = number_at(p.at + 4 * i);
    }
    r->cut |= p.length % 4 != 0;
    return words;
}

static uint32_t next_number(record *r)
{
    part p = next_part(r);
    if (p.length != 4) {
        r->cut = 1;
        return 0;
    }
    return number_at(p.at);
}

/* A buffer, of which no byte is 0 before the call. */
static byte_slice next_buffer(record *r)
{
    size_t length = next_number(r);
    byte_slice buffer = {new_block(r, length), length};
    memset(buffer.at, 0xa5, length);
    return buffer;
}

/* Answers. */

/* The bytes of an answer, of which matching one node has most: four for a number, the lowest first. */
typedef struct answer {
    uint8_t bytes[172];
    size_t length;
    int wide; /* 1 if a number has more than four bytes: no record has */
} answer;

static void lay_byte(answer *a, uint8_t byte)
{
    a->bytes[a->length] = byte;
    a->length += 1;
}

static void lay(answer *a, size_t n)
{
    lay_byte(a, n & 0xff);
    lay_byte(a, n >> 8 & 0xff);
    lay_byte(a, n >> 16 & 0xff);
    lay_byte(a, n >> 24 & 0xff);
    a->wide |= n > UINT32_MAX;
}

/* Whether bytes are the expected ones, which are stored up to the last that is not 0. */
static int is_stored(const uint8_t *found, size_t length, part expected)
{
    if (length < expected.length || memcmp(found, expected.at, expected.length) != 0) {
        return 0;
    }
    for (size_t i = expected.length; i < length; i++) {
        if (found[i] != 0) {
            return 0;
        }
    }
    return 1;
}

static int is_answer(const answer *a, part expected)
{
    return !a->wide && is_stored(a->bytes, a->length, expected);
}

static int is_number(uint32_t n, part expected)
{
    answer a = {{0}, 0, 0};
    lay(&a, n);
    return is_answer(&a, expected);
}

static void lay_placeholders(answer *a, const ssr_placeholder *placeholders)
{
    for (size_t i = 0; i < SSR_PLACEHOLDERS; i++) {
        lay(a, placeholders[i].start);
        lay(a, placeholders[i].end);
        lay(a, placeholders[i].constraints);
    }
}

static void lay_nots(answer *a, const uint8_t *nots)
{
    for (size_t i = 0; i < SSR_CONSTRAINTS; i++) {
        lay_byte(a, nots[i]);
    }
}

static void lay_bindings(answer *a, const ssr_binding *bindings)
{
    for (size_t i = 0; i < SSR_PLACEHOLDERS; i++) {
        lay(a, bindings[i].bound);
        lay(a, bindings[i].start);
        lay(a, bindings[i].end);
        lay(a, bindings[i].stars);
        lay(a, bindings[i].self_kind);
    }
}

/* Whether the answer of a job or a walk is the expected one. */
static int is_edited(ssr_job_answer found, part expected)
{
    answer a = {{0}, 0, 0};
    lay(&a, found.refusal);
    lay(&a, found.asked);
    lay(&a, found.kind);
    lay(&a, found.length);
    return is_answer(&a, expected);
}

/* Operations: whether each answers as its record expects. */

static int read_tokens(record *r)
{
    word_slice words = next_words(r);
    byte_slice text = next_bytes(r);
    ssr_read_tokens_answer found = ssr_read_tokens(words.at, words.length, text.at, text.length);
    answer a = {{0}, 0, 0};
    lay(&a, found.refusal);
    lay(&a, found.count);
    lay_placeholders(&a, found.placeholders);
    lay(&a, found.constraints);
    lay_nots(&a, found.nots);
    return is_answer(&a, next_part(r));
}

static int check_pair(record *r)
{
    word_slice pattern = next_words(r);
    byte_slice pattern_text = next_bytes(r);
    uint32_t given = next_number(r);
    word_slice template = next_words(r);
    byte_slice template_text = next_bytes(r);
    uint32_t found = ssr_check_pair(pattern.at, pattern.length, pattern_text.at, pattern_text.length, given,
                                    template.at, template.length, template_text.at, template_text.length);
    return is_number(found, next_part(r));
}

static int raw_code(record *r)
{
    word_slice words = next_words(r);
    byte_slice text = next_bytes(r);
    byte_slice out = next_buffer(r);
    part left = next_part(r);
    ssr_raw_code_answer found =
        ssr_raw_code(words.at, words.length, text.at, text.length, out.at, out.length);
    answer a = {{0}, 0, 0};
    lay(&a, found.refusal);
    lay(&a, found.length);
    return is_answer(&a, next_part(r)) && is_stored(out.at, out.length, left);
}

static int check_file(record *r)
{
    word_slice tree = next_words(r);
    byte_slice text = next_bytes(r);
    word_slice facts = next_words(r);
    uint32_t found = ssr_check_file(tree.at, tree.length, text.at, text.length, facts.at, facts.length);
    return is_number(found, next_part(r));
}

static int check_rule_tree(record *r)
{
    uint32_t given = next_number(r);
    word_slice list = next_words(r);
    byte_slice list_text = next_bytes(r);
    uint32_t side = next_number(r);
    word_slice tree = next_words(r);
    byte_slice code = next_bytes(r);
    word_slice facts = next_words(r);
    byte_slice fact_text = next_bytes(r);
    uint32_t found = ssr_check_rule_tree(given, list.at, list.length, list_text.at, list_text.length, side,
                                         tree.at, tree.length, code.at, code.length,
                                         facts.at, facts.length, fact_text.at, fact_text.length);
    return is_number(found, next_part(r));
}

static int build_rules(record *r)
{
    word_slice directory = next_words(r);
    word_slice words = next_words(r);
    byte_slice bytes = next_bytes(r);
    size_t rule = next_number(r);
    ssr_build_rules_answer found = ssr_build_rules(directory.at, directory.length, words.at, words.length,
                                                   bytes.at, bytes.length, rule);
    answer a = {{0}, 0, 0};
    lay(&a, found.refusal);
    lay(&a, found.rules);
    lay(&a, found.found);
    lay(&a, found.pair);
    lay(&a, found.form);
    lay(&a, found.template_tree);
    return is_answer(&a, next_part(r));
}

static int resolve(record *r)
{
    word_slice directory = next_words(r);
    word_slice words = next_words(r);
    byte_slice bytes = next_bytes(r);
    byte_slice fact_text = next_bytes(r);
    size_t rule = next_number(r);
    uint32_t side = next_number(r);
    size_t element = next_number(r);
    ssr_resolve_answer found = ssr_resolve(directory.at, directory.length, words.at, words.length,
                                           bytes.at, bytes.length, fact_text.at, fact_text.length,
                                           rule, side, element);
    answer a = {{0}, 0, 0};
    lay(&a, found.refusal);
    lay(&a, found.found);
    lay(&a, found.resolved);
    lay(&a, found.resolution);
    lay(&a, found.call);
    lay(&a, found.function);
    lay(&a, found.typed);
    lay(&a, found.qualifier_type);
    lay(&a, found.contains_self);
    return is_answer(&a, next_part(r));
}

static int match_node(record *r)
{
    word_slice directory = next_words(r);
    word_slice words = next_words(r);
    byte_slice bytes = next_bytes(r);
    byte_slice fact_text = next_bytes(r);
    word_slice tree = next_words(r);
    byte_slice text = next_bytes(r);
    word_slice facts = next_words(r);
    size_t node = next_number(r);
    size_t rule = next_number(r);
    uint32_t range_given = next_number(r);
    size_t range_start = next_number(r);
    size_t range_end = next_number(r);
    byte_slice out = next_buffer(r);
    part left = next_part(r);
    ssr_match_node_answer found =
        ssr_match_node(directory.at, directory.length, words.at, words.length, bytes.at, bytes.length,
                       fact_text.at, fact_text.length, tree.at, tree.length, text.at, text.length,
                       facts.at, facts.length, node, rule, range_given, range_start, range_end,
                       out.at, out.length);
    answer a = {{0}, 0, 0};
    lay(&a, found.refusal);
    lay(&a, found.matched);
    lay(&a, found.length);
    lay_bindings(&a, found.bindings);
    return is_answer(&a, next_part(r)) && is_stored(out.at, out.length, left);
}

static int job(record *r)
{
    word_slice directory = next_words(r);
    word_slice words = next_words(r);
    byte_slice bytes = next_bytes(r);
    byte_slice fact_text = next_bytes(r);
    word_slice tree = next_words(r);
    byte_slice text = next_bytes(r);
    word_slice facts = next_words(r);
    word_slice parses = next_words(r);
    byte_slice parse_text = next_bytes(r);
    word_slice candidates = next_words(r);
    uint32_t range_given = next_number(r);
    size_t range_start = next_number(r);
    size_t range_end = next_number(r);
    byte_slice out = next_buffer(r);
    part left = next_part(r);
    ssr_job_answer found =
        ssr_job(directory.at, directory.length, words.at, words.length, bytes.at, bytes.length,
                fact_text.at, fact_text.length, tree.at, tree.length, text.at, text.length,
                facts.at, facts.length, parses.at, parses.length, parse_text.at, parse_text.length,
                candidates.at, candidates.length, range_given, range_start, range_end, out.at, out.length);
    return is_edited(found, next_part(r)) && is_stored(out.at, out.length, left);
}

static int walk(record *r)
{
    word_slice directory = next_words(r);
    word_slice words = next_words(r);
    byte_slice bytes = next_bytes(r);
    byte_slice fact_text = next_bytes(r);
    word_slice tree = next_words(r);
    byte_slice text = next_bytes(r);
    word_slice facts = next_words(r);
    word_slice parses = next_words(r);
    byte_slice parse_text = next_bytes(r);
    uint32_t range_given = next_number(r);
    size_t range_start = next_number(r);
    size_t range_end = next_number(r);
    byte_slice out = next_buffer(r);
    part left = next_part(r);
    ssr_job_answer found =
        ssr_walk(directory.at, directory.length, words.at, words.length, bytes.at, bytes.length,
                 fact_text.at, fact_text.length, tree.at, tree.length, text.at, text.length,
                 facts.at, facts.length, parses.at, parses.length, parse_text.at, parse_text.length,
                 range_given, range_start, range_end, out.at, out.length);
    return is_edited(found, next_part(r)) && is_stored(out.at, out.length, left);
}

/* The sample. */

/* An operation, and how many of its answers were equal. */
typedef struct operation {
    const char *name;
    int (*is_right)(record *r);
    unsigned long equal;
    unsigned long different;
} operation;

#define OPERATIONS 11

/* By their numbers in a record; 0 is for those that are not known. */
static operation operations[OPERATIONS] = {
    {"unknown operations", NULL, 0, 0},
    {"read tokens", read_tokens, 0, 0},
    {"check pairs", check_pair, 0, 0},
    {"write raw code", raw_code, 0, 0},
    {"check file trees", check_file, 0, 0},
    {"check rule trees", check_rule_tree, 0, 0},
    {"build rules", build_rules, 0, 0},
    {"resolve", resolve, 0, 0},
    {"match nodes", match_node, 0, 0},
    {"jobs", job, 0, 0},
    {"walks", walk, 0, 0},
};

/* Says what is wrong with a record, counted from 0. Answers 0, since the record is not as expected. */
static int report(unsigned long number, const char *what, const char *why)
{
    fprintf(stderr, "record %lu, %s: %s\n", number, what, why);
    return 0;
}

/* Calls the function of an operation with a record's parts: what is wrong, or null. */
static const char *fault(const operation *o, const uint8_t *parts, size_t size)
{
    if (o->is_right == NULL) {
        return "no such operation";
    }
    record r = {parts, size, 0, {NULL}, 0};
    int right = o->is_right(&r);
    free_blocks(&r);
    if (r.cut || r.left != 0) {
        return "its parts are cut off, or too many";
    }
    return right ? NULL : "different";
}

/* Replays a record and counts it: whether its answer is the expected one. */
static int replay(unsigned long number, const uint8_t *body, size_t size)
{
    uint32_t which = number_at(body);
    operation *o = &operations[which < OPERATIONS ? which : 0];
    const char *why = fault(o, body + 4, size - 4);
    if (why != NULL) {
        o->different += 1;
        return report(number, o->name, why);
    }
    o->equal += 1;
    return 1;
}

/* Reads a record's body, without its length: whether there was a whole one. */
static int read_body(uint8_t *body, size_t size)
{
    return 4 <= size && fread(body, 1, size, stdin) == size;
}

/* Replays the sample, up to a record that is cut off: whether all was as expected. */
static int replay_all(void)
{
    int right = 1;
    unsigned long number = 0;
    uint8_t head[4];
    size_t read;
    while ((read = fread(head, 1, 4, stdin)) == 4) {
        size_t size = number_at(head);
        uint8_t *body = malloc(size + 1);
        if (body == NULL || !read_body(body, size)) {
            free(body);
            return report(number, "the sample", "cut off");
        }
        right &= replay(number, body, size);
        free(body);
        number += 1;
    }
    return read == 0 ? right : report(number, "the sample", "cut off");
}

static void print(const operation *o)
{
    printf("%s: %lu equal, %lu different\n", o->name, o->equal, o->different);
}

int main(void)
{
    int right = replay_all();
    for (size_t i = 1; i < OPERATIONS; i++) {
        print(&operations[i]);
    }
    if (operations[0].different > 0) {
        print(&operations[0]);
    }
    return right ? 0 : 1;
}
