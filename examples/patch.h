/* A patch, and what the examples share of the front end that makes it: a parser, and name resolution for the
 * names of the examples' texts. The loader is handed the patch, and parses nothing.
 */
#ifndef PATCH_H
#define PATCH_H

#include "front_end.h"

#define COUNT(array) (sizeof(array) / sizeof *(array))

/* The most texts that were parsed before. */
#define PARSES 8

/* What the front end is given. */
typedef struct patch_texts {
    const char *file;
    const char *rules[3][2]; /* pattern and template */
    const char *parsed[PARSES]; /* expressions that it was asked to parse before, up to a null */
} patch_texts;

/* What the loader is handed. */
typedef struct patch {
    rules rules;
    bytes fact_text;
    source file;
    words facts;
    source parses[PARSES]; /* the trees of the texts that were parsed before */
    size_t parse_count;
} patch;

/* The parser: what it has read of a text is in the tree. */

typedef struct parser {
    source *tree;
    const char *at;
} parser;

static inline void take(parser *p, uint32_t kind, size_t length)
{
    add_token(p->tree, kind, p->at, length);
    p->at += length;
}

static inline int is_next(const parser *p, const char *text)
{
    return strncmp(p->at, text, strlen(text)) == 0;
}

static inline void take_mark(parser *p, uint32_t kind, const char *text)
{
    if (!is_next(p, text)) {
        fail("the text is not what this parser reads");
    }
    take(p, kind, strlen(text));
}

static inline void take_name(parser *p)
{
    take(p, IDENT, strcspn(p->at, " \n,;:.()*&+"));
}

static inline void take_space(parser *p)
{
    size_t length = strspn(p->at, " \n");
    if (length > 0) {
        take(p, WHITESPACE, length);
    }
}

/* Opens a node around all that was read from an element on. */
static inline void open_around(source *tree, size_t element, uint32_t kind)
{
    uint32_t *at = tree->words.at + 3 * element;
    uint32_t start = at[1];
    size_t length = tree->words.length - 3 * element;
    open_node(tree, kind);
    memmove(at + 3, at, length * sizeof *at);
    at[0] = head(1, kind, 0);
    at[1] = start;
}

static inline void parse_name_ref(parser *p)
{
    size_t name_ref = open_node(p->tree, NAME_REF);
    take_name(p);
    close_node(p->tree, name_ref);
}

static inline void parse_segment(parser *p)
{
    size_t segment = open_node(p->tree, PATH_SEGMENT);
    parse_name_ref(p);
    close_node(p->tree, segment);
}

/* A name, or names with `::` between: all but the last are the path that it is qualified by. */
static inline void parse_path(parser *p)
{
    size_t path = open_node(p->tree, PATH);
    parse_segment(p);
    close_node(p->tree, path);
    while (is_next(p, "::") && !is_next(p, "::*")) {
        open_around(p->tree, path, PATH);
        take_mark(p, COLON2, "::");
        parse_segment(p);
        close_node(p->tree, path);
    }
}

static inline void parse_expression(parser *p);

static inline void parse_arguments(parser *p)
{
    size_t arguments = open_node(p->tree, ARG_LIST);
    take_mark(p, L_PAREN, "(");
    while (!is_next(p, ")")) {
        parse_expression(p);
        if (is_next(p, ",")) {
            take_mark(p, COMMA, ",");
            take_space(p);
        }
    }
    take_mark(p, R_PAREN, ")");
    close_node(p->tree, arguments);
}

/* A reference, or a path that may be called; methods may be called of that. */
static inline void parse_operand(parser *p)
{
    size_t operand = elements(p->tree);
    if (is_next(p, "&")) {
        open_node(p->tree, REF_EXPR);
        take_mark(p, AMP, "&");
        parse_operand(p);
        close_node(p->tree, operand);
        return;
    }
    open_node(p->tree, PATH_EXPR);
    parse_path(p);
    close_node(p->tree, operand);
    if (is_next(p, "(")) {
        open_around(p->tree, operand, CALL_EXPR);
        parse_arguments(p);
        close_node(p->tree, operand);
    }
    while (is_next(p, ".")) {
        open_around(p->tree, operand, METHOD_CALL_EXPR);
        take_mark(p, DOT, ".");
        parse_name_ref(p);
        parse_arguments(p);
        close_node(p->tree, operand);
    }
}

/* Operands with `+` between: the sum so far is the next one's left side. */
static inline void parse_expression(parser *p)
{
    size_t sum = elements(p->tree);
    parse_operand(p);
    while (is_next(p, " + ")) {
        open_around(p->tree, sum, BIN_EXPR);
        take_space(p);
        take_mark(p, PLUS, "+");
        take_space(p);
        parse_operand(p);
        close_node(p->tree, sum);
    }
}

static inline void parse_statement(parser *p)
{
    size_t statement = open_node(p->tree, EXPR_STMT);
    parse_expression(p);
    take_mark(p, SEMICOLON, ";");
    close_node(p->tree, statement);
}

static inline void parse_block(parser *p)
{
    size_t block = open_node(p->tree, BLOCK_EXPR);
    size_t list = open_node(p->tree, STMT_LIST);
    take_mark(p, L_CURLY, "{");
    take_space(p);
    while (!is_next(p, "}")) {
        parse_statement(p);
        take_space(p);
    }
    take_mark(p, R_CURLY, "}");
    close_node(p->tree, list);
    close_node(p->tree, block);
}

/* `use`, a path, and all that it has. */
static inline void parse_use(parser *p)
{
    size_t use = open_node(p->tree, USE);
    take_mark(p, USE_KEYWORD, "use");
    take_space(p);
    size_t use_tree = open_node(p->tree, USE_TREE);
    parse_path(p);
    take_mark(p, COLON2, "::");
    take_mark(p, STAR, "*");
    close_node(p->tree, use_tree);
    take_mark(p, SEMICOLON, ";");
    close_node(p->tree, use);
}

/* A function without parameters. */
static inline void parse_fn(parser *p)
{
    size_t fn = open_node(p->tree, FN);
    take_mark(p, FN_KEYWORD, "fn");
    take_space(p);
    size_t name = open_node(p->tree, NAME);
    take_name(p);
    close_node(p->tree, name);
    size_t parameters = open_node(p->tree, PARAM_LIST);
    take_mark(p, L_PAREN, "(");
    take_mark(p, R_PAREN, ")");
    close_node(p->tree, parameters);
    take_space(p);
    parse_block(p);
    close_node(p->tree, fn);
}

static inline void parse_file(parser *p)
{
    size_t root = open_node(p->tree, SOURCE_FILE);
    parse_use(p);
    take_space(p);
    parse_fn(p);
    take_space(p);
    close_node(p->tree, root);
}

/* Parses all of a text. */
static inline void parse_all(source *tree, const char *text, void (*parse)(parser *p))
{
    parser p = {tree, text};
    parse(&p);
    if (*p.at != '\0') {
        fail("the text goes on");
    }
}

/* Name resolution. Any numbers will do, as long as equal things have equal ones. */

enum { MODULE_RUN = 1 };
enum { MODULE_ARM = 1, STRUCT_S, METHOD_F, FUNCTION_H, FUNCTION_OLD, FUNCTION_NEW2, FUNCTION_FOO, STATIC_X,
       STATIC_Y };
enum { TYPE_S = 1 };

typedef struct resolved {
    const char *path;
    uint32_t number;
    uint32_t flags; /* of a rule's path */
} resolved;

/* All but the module come from it, and are written by their names alone where it is used. */
static const resolved known_paths[] = {
    {"arm", MODULE_ARM, USABLE | DEFINITION},
    {"S", STRUCT_S, USABLE | DEFINITION},
    {"S::f", METHOD_F, USABLE | DEFINITION | ASSOCIATED_FUNCTION},
    {"h", FUNCTION_H, USABLE | DEFINITION},
    {"old", FUNCTION_OLD, USABLE | DEFINITION},
    {"new2", FUNCTION_NEW2, USABLE | DEFINITION},
    {"foo", FUNCTION_FOO, USABLE | DEFINITION},
    {"x", STATIC_X, USABLE | DEFINITION},
    {"y", STATIC_Y, USABLE | DEFINITION},
};

/* Whether the text of an element is this one. */
static inline int has_text(const source *tree, size_t element, const char *text)
{
    size_t start = value(tree->words.at[3 * element + 1]);
    size_t end = value(tree->words.at[3 * element + 2]);
    return end - start == strlen(text) && memcmp(tree->text.at + start, text, end - start) == 0;
}

/* What a path resolves to; null where an element is none, or a placeholder's. */
static inline const resolved *resolve(const source *tree, size_t element)
{
    for (size_t i = 0; i < COUNT(known_paths) && is_node(tree, element, PATH); i++) {
        if (has_text(tree, element, known_paths[i].path)) {
            return &known_paths[i];
        }
    }
    return NULL;
}

/* The facts of a rule's tree: its paths, with the type that qualifies a method and with how a template's path
 * is written in the file's module.
 */
static inline void resolve_rule(words *facts, const source *tree, size_t side, bytes *fact_text)
{
    for (size_t i = 0; i < elements(tree); i++) {
        const resolved *r = resolve(tree, i);
        if (r == NULL) {
            continue;
        }
        add_fact(facts, RULE_PATH, i, r->number, r->flags, 0);
        if (side == SSR_SIDE_TEMPLATE) {
            add_fact(facts, TEMPLATE_PATH, i, MODULE_RUN, fact_text->length, strlen(r->path));
            add_bytes(fact_text, r->path, strlen(r->path));
        } else if (r->number == METHOD_F) {
            add_fact(facts, QUALIFIER_TYPE, i, TYPE_S, 0, 0);
        }
    }
}

/* The facts of the file's tree: its paths, the method that is called and its receiver's type, which is `S`
 * without a dereference, and the module that all nodes are in.
 */
static inline void resolve_file(words *facts, const source *file)
{
    for (size_t i = 0; i < elements(file); i++) {
        const resolved *r = resolve(file, i);
        if (r != NULL) {
            add_fact(facts, CODE_PATH, i, r->number, 0, 0);
        }
        if (is_node(file, i, METHOD_CALL_EXPR) && has_text(file, i, "old().f()")) {
            add_fact(facts, METHOD_CALL, i, METHOD_F, 1, SSR_SELF_REF);
        }
        if (is_node(file, i, CALL_EXPR) && has_text(file, i, "old()")) {
            add_fact(facts, EXPR_TYPE, i, 0, TYPE_S, 0);
        }
        if (!is_token(file, i)) {
            add_fact(facts, NODE_MODULE, i, MODULE_RUN, 0, 0);
        }
    }
}

/* The patch. */

/* One side of a rule: its list is lexed, and the raw code parsed. Only expressions are: the other forms are
 * absent.
 */
typedef struct rule_side {
    source list;
    source tree;
    words facts;
} rule_side;

static inline void make_side(rule_side *s, const char *text, size_t side, bytes *fact_text)
{
    char code[BYTES];
    memset(s, 0, sizeof *s);
    lex(&s->list, text);
    ssr_raw_code_answer raw = ssr_raw_code(s->list.words.at, s->list.words.length, s->list.text.at,
                                           s->list.text.length, (uint8_t *)code, sizeof code - 1);
    stop_if_refused("ssr_raw_code", raw.refusal);
    code[raw.length] = '\0';
    parse_all(&s->tree, code, parse_expression);
    resolve_rule(&s->facts, &s->tree, side, fact_text);
}

static inline void add_rule(patch *p, const char *pattern_text, const char *template_text)
{
    static rule_side pattern, template;
    make_side(&pattern, pattern_text, SSR_SIDE_PATTERN, &p->fact_text);
    make_side(&template, template_text, SSR_SIDE_TEMPLATE, &p->fact_text);
    add_row(&p->rules);
    add_side(&p->rules, SSR_SIDE_PATTERN, &pattern.list, &pattern.tree.text);
    add_side(&p->rules, SSR_SIDE_TEMPLATE, &template.list, &template.tree.text);
    add_form(&p->rules, SSR_SIDE_PATTERN, SSR_FORM_EXPRESSION, &pattern.tree, &pattern.facts);
    add_form(&p->rules, SSR_SIDE_TEMPLATE, SSR_FORM_EXPRESSION, &template.tree, &template.facts);
}

static inline void make_patch(patch *p, const patch_texts *texts)
{
    for (size_t i = 0; i < COUNT(texts->rules); i++) {
        add_rule(p, texts->rules[i][0], texts->rules[i][1]);
    }
    parse_all(&p->file, texts->file, parse_file);
    resolve_file(&p->facts, &p->file);
    while (p->parse_count < PARSES && texts->parsed[p->parse_count] != NULL) {
        parse_all(&p->parses[p->parse_count], texts->parsed[p->parse_count], parse_expression);
        p->parse_count += 1;
    }
}

#endif
