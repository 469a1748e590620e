/* Reads a rule, matches one node of a file with it, and prints what the placeholders captured:
 *
 *   rule   f(${p:not(kind(literal))}, $q) ==>> g($q, $p)
 *   file   f(a, b), with a comment behind the b
 *
 * This is document 01's example I, with the constraint of B and the comment of L.
 *
 * Lexing, parsing and name resolution are the caller's: here `lex`, `parse_call` and a few facts stand for
 * them. The functions of front_end.h lay what a front end knows as the words of docs/FORMAT.md, and name its
 * sections.
 */
#include "front_end.h"

/* What name resolution found. Any numbers will do, as long as equal things have equal ones. */
enum { FUNCTION_F = 1, FUNCTION_G = 2, MODULE = 1 };

/* The number of the first node of a kind; of no element where there is none, which is refused. */
static size_t find_node(const source *tree, uint32_t kind)
{
    size_t node = 0;
    while (node < elements(tree) && !is_node(tree, node, kind)) {
        node += 1;
    }
    return node;
}

/* The parser: a path of one name as an expression, and a call with two of them. */
static void parse_token(source *tree, uint32_t kind, const char *text)
{
    add_token(tree, kind, text, strlen(text));
}

static void parse_path(source *tree, const char *name)
{
    size_t expression = open_node(tree, PATH_EXPR);
    size_t path = open_node(tree, PATH);
    size_t segment = open_node(tree, PATH_SEGMENT);
    size_t name_ref = open_node(tree, NAME_REF);
    parse_token(tree, IDENT, name);
    close_node(tree, name_ref);
    close_node(tree, segment);
    close_node(tree, path);
    close_node(tree, expression);
}

static void parse_call(source *tree, const char *function, const char *p, const char *q, const char *comment)
{
    size_t call = open_node(tree, CALL_EXPR);
    parse_path(tree, function);
    size_t arguments = open_node(tree, ARG_LIST);
    parse_token(tree, L_PAREN, "(");
    parse_path(tree, p);
    parse_token(tree, COMMA, ",");
    parse_token(tree, WHITESPACE, " ");
    parse_path(tree, q);
    if (comment != NULL) {
        parse_token(tree, WHITESPACE, " ");
        parse_token(tree, COMMENT, comment);
    }
    parse_token(tree, R_PAREN, ")");
    close_node(tree, arguments);
    close_node(tree, call);
}

/* The rule. Each side's first path resolves; the fact text is how the template's is written in the module. */
static void make_rule(rules *r, const source *pattern, const bytes *fact_text)
{
    static source template, pattern_tree, template_tree;
    static words pattern_facts, template_facts;
    lex(&template, "g($q, $p)");
    parse_call(&pattern_tree, "f", "__placeholder_p", "__placeholder_q", NULL);
    parse_call(&template_tree, "g", "__placeholder_q", "__placeholder_p", NULL);
    size_t f = find_node(&pattern_tree, PATH);
    size_t g = find_node(&template_tree, PATH);
    add_fact(&pattern_facts, RULE_PATH, f, FUNCTION_F, USABLE | DEFINITION, 0);
    add_fact(&template_facts, RULE_PATH, g, FUNCTION_G, USABLE | DEFINITION, 0);
    add_fact(&template_facts, TEMPLATE_PATH, g, MODULE, 0, fact_text->length);

    add_row(r);
    add_side(r, SSR_SIDE_PATTERN, pattern, &pattern_tree.text);
    add_side(r, SSR_SIDE_TEMPLATE, &template, &template_tree.text);
    add_form(r, SSR_SIDE_PATTERN, SSR_FORM_EXPRESSION, &pattern_tree, &pattern_facts);
    add_form(r, SSR_SIDE_TEMPLATE, SSR_FORM_EXPRESSION, &template_tree, &template_facts);
}

/* The file. Its first path resolves, and the call stands in the module. */
static void make_file(source *file, words *facts)
{
    size_t root = open_node(file, SOURCE_FILE);
    parse_call(file, "f", "a", "b", "/*c*/");
    close_node(file, root);
    add_fact(facts, CODE_PATH, find_node(file, PATH), FUNCTION_F, 0, 0);
    add_fact(facts, NODE_MODULE, find_node(file, CALL_EXPR), MODULE, 0, 0);
}

static void print_constraints(const uint8_t *nots, size_t count)
{
    for (size_t i = 0; i < count; i++) {
        printf(", kind(literal) inside %u not", (unsigned)nots[i]);
    }
}

/* The placeholders by name; the constraints of all of them stand behind each other. */
static void print_placeholders(const ssr_read_tokens_answer *read, const uint8_t *text)
{
    const uint8_t *nots = read->nots;
    for (size_t i = 0; i < read->count; i++) {
        const ssr_placeholder *p = &read->placeholders[i];
        print_part("placeholder ", text, p->start, p->end);
        print_constraints(nots, p->constraints);
        printf("\n");
        nots += p->constraints;
    }
}

/* Binding i is the pattern's placeholder i; one that the match never met is not bound. */
static void print_bindings(const ssr_read_tokens_answer *read, const uint8_t *text,
                           const ssr_match_node_answer *match, const uint8_t *file)
{
    for (size_t i = 0; i < read->count; i++) {
        const ssr_placeholder *p = &read->placeholders[i];
        const ssr_binding *b = &match->bindings[i];
        print_part("", text, p->start, p->end);
        print_part(b->bound ? " captured " : " captured nothing", file, b->start, b->end);
        printf("\n");
    }
}

int main(void)
{
    static source pattern, file;
    static words facts;
    static rules rule;
    static const bytes fact_text = {"g", 1};
    uint8_t comments[64];

    lex(&pattern, "f(${p:not(kind(literal))}, $q)");
    ssr_read_tokens_answer read =
        ssr_read_tokens(pattern.words.at, pattern.words.length, pattern.text.at, pattern.text.length);
    stop_if_refused("ssr_read_tokens", read.refusal);
    print_placeholders(&read, pattern.text.at);

    make_rule(&rule, &pattern, &fact_text);
    make_file(&file, &facts);
    size_t node = find_node(&file, CALL_EXPR);
    ssr_match_node_answer match = ssr_match_node(
        rule.directory.at, rule.directory.length, rule.words.at, rule.words.length,
        rule.bytes.at, rule.bytes.length,
        fact_text.at, fact_text.length,
        file.words.at, file.words.length, file.text.at, file.text.length, facts.at, facts.length,
        node, 0 /* the only rule */, 0, 0, 0 /* in no range */, comments, sizeof comments);
    stop_if_refused("ssr_match_node", match.refusal);
    printf("node %u %s\n", (unsigned)node, match.matched ? "matches" : "does not match");
    print_bindings(&read, pattern.text.at, &match, file.text.at);
    print_part("comments: ", comments, 0, match.length);
    printf("\n");
    return 0;
}
