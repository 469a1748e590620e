/* The C ABI of structural search and replace: one function for each operation of document 01, and two that
 * check a tree with its facts by itself. docs/FORMAT.md says what words, texts and rules are.
 *
 * A slice is handed over as two arguments, a pointer to its first element and its number of elements. The
 * pointer of an empty slice is not read, and must not be null. The slice that is written to, `out`, shares no
 * byte with another. Nothing is kept after a call, nothing is allocated, and no call fails: for every input,
 * damaged ones too, the result is the one that the definitions under crates/ssr/specs give.
 *
 * In an answer everything that is not used is 0; after a refusal that is all but its number.
 *
 * Of `out` the first SSR_BUFFER_BYTES bytes, or all of a shorter one, hold the result and then 0; after a
 * refusal they are all 0. Bytes beyond never change.
 */
#ifndef SSR_H
#define SSR_H

#include <stddef.h>
#include <stdint.h>

#ifdef __cplusplus
extern "C" {
#endif

/* The most tokens and placeholders of a list, and the most constraints that so many tokens can hold. */
#define SSR_TOKENS 255
#define SSR_PLACEHOLDERS 8
#define SSR_CONSTRAINTS 50

/* The most elements of a tree, bytes of its text, its greatest depth, and the most facts of a tree. */
#define SSR_TREE_ELEMENTS 16383
#define SSR_TREE_BYTES 65535
#define SSR_TREE_DEPTH 128
#define SSR_FACTS 16383

/* How many lengths a row of the directory has. */
#define SSR_ROW_LENGTHS 27

/* The most rules that are left and candidates of a job, and how many words a candidate has; the most matches
 * of a walk.
 */
#define SSR_RULES 16
#define SSR_CANDIDATES 1024
#define SSR_CANDIDATE_WORDS 2
#define SSR_MATCHES 1024

/* The most bytes of `out` that are used, and how many an edit has before its replacement. */
#define SSR_BUFFER_BYTES 1048576
#define SSR_EDIT_BYTES 12

/* The refusals by document 01's numbers, each with its condition; 0 is no refusal. Each function below says
 * which of them it answers, in the order in which they are looked for.
 */
typedef enum ssr_refusal {
    /* Of a token list; 1 of the directory too. */
    SSR_MALFORMED_LIST = 1,            /* malformed list or over SSR_TOKENS tokens */
    SSR_ENDS_AFTER_BRACE = 2,          /* list ends after `${` */
    SSR_ENDS_BEFORE_CLOSING_BRACE = 3, /* ends before `}` */
    SSR_UNEXPECTED_TOKEN = 4,          /* another token inside the braces */
    SSR_NEITHER_NAME_NOR_BRACE = 5,    /* after `$` a token that is neither IDENT nor `{` */
    SSR_NO_NAME = 6,                   /* no name, met at `}` or where the list ends right after `$` */
    SSR_ENDS_BEFORE_CONSTRAINT = 7,    /* ends where a constraint should start */
    SSR_UNSUPPORTED_CONSTRAINT = 8,    /* neither `kind` nor `not` */
    SSR_MISSING_PARENTHESIS = 9,       /* `(` or `)` missing */
    SSR_NO_KIND_IDENT = 10,            /* no IDENT inside `kind` */
    SSR_UNKNOWN_KIND = 11,             /* unknown kind, looked at after `)` */
    SSR_REPEATED_NAME = 12,            /* name repeated */
    SSR_NINTH_PLACEHOLDER = 13,        /* ninth placeholder, its name new */
    /* Of a pair of lists. */
    SSR_TEMPLATE_CONSTRAINT = 14,      /* constraint in the template */
    SSR_UNDEFINED_PLACEHOLDER = 15,    /* undefined placeholder: the pattern has none of its name */
    /* Of `out`. */
    SSR_DOES_NOT_FIT = 16,             /* does not fit: the raw code, or the comments of a match */
    /* Of a pair's trees. */
    SSR_NO_FORM = 17,                  /* no form has both its trees (its pattern alone, if no template was
                                          given) */
    /* Of a tree with its facts. */
    SSR_TREE_TOO_LARGE = 18,           /* over SSR_TREE_ELEMENTS elements or SSR_TREE_BYTES bytes */
    SSR_MALFORMED_TREE = 19,           /* malformed; over another text than the list's code too */
    SSR_TREE_TOO_DEEP = 20,            /* an element deeper than SSR_TREE_DEPTH, the root being at 1 */
    SSR_MALFORMED_FACTS = 21,          /* facts malformed (a range outside the fact text too), over SSR_FACTS,
                                          or one repeated (sort, element, and step or module) */
    /* Of the rules that are left. */
    SSR_UNRESOLVED_PATH = 22,          /* a path that must resolve has no fact */
    /* Of what is asked for. */
    SSR_NO_SUCH_NODE_OR_RULE = 23,     /* no such node or rule, or a range whose start is after its end */
    /* Of a job or a walk. */
    SSR_TOO_MANY_RULES_OR_CANDIDATES = 24, /* over SSR_RULES rules; over SSR_CANDIDATES candidates of a job, or
                                              SSR_MATCHES matches of a walk */
    SSR_NO_SUCH_CANDIDATE = 25,        /* a candidate without such node or rule, or 23's range */
    SSR_REPEATED_CANDIDATE = 26,       /* a pair of node and rule twice */
    SSR_NO_TEMPLATE = 27,              /* a rule without template */
    SSR_MALFORMED_PARSES = 28,         /* parses malformed, or kind and text repeated */
    /* Of an edit list, as it is written. */
    SSR_UNBOUND_PLACEHOLDER = 29,      /* a template placeholder unbound: the match never met it */
    SSR_NO_ROOM = 30                   /* the next byte, laid behind the list so far and the unfinished texts
                                          around it, does not fit */
} ssr_refusal;

/* A side of a rule. */
typedef enum ssr_side {
    SSR_SIDE_PATTERN = 0,
    SSR_SIDE_TEMPLATE = 1
} ssr_side;

/* A form: what a list's code was parsed as. */
typedef enum ssr_form {
    SSR_FORM_EXPRESSION = 0,
    SSR_FORM_TYPE = 1,
    SSR_FORM_ITEM = 2,
    SSR_FORM_PATTERN = 3,
    SSR_FORM_STATEMENT = 4
} ssr_form;

/* Which tree a rule has for its template. */
typedef enum ssr_template_tree {
    SSR_TEMPLATE_TREE_ABSENT = 0,  /* none: no template was given */
    SSR_TEMPLATE_TREE_OWN = 1,     /* its form's own */
    SSR_TEMPLATE_TREE_STAND_IN = 2 /* the statement's in place of the expression's */
} ssr_template_tree;

/* How a function takes its receiver. */
typedef enum ssr_self_kind {
    SSR_SELF_OWNED = 0,
    SSR_SELF_REF = 1,    /* `&` */
    SSR_SELF_REF_MUT = 2 /* `&mut` */
} ssr_self_kind;

/* A placeholder: its name is the bytes from start up to end of the list's text. */
typedef struct ssr_placeholder {
    size_t start;
    size_t end;
    size_t constraints; /* how many constraints it has */
} ssr_placeholder;

typedef struct ssr_read_tokens_answer {
    uint32_t refusal;
    size_t count; /* how many placeholders there are */
    ssr_placeholder placeholders[SSR_PLACEHOLDERS]; /* in the order of the list */
    size_t constraints; /* how many constraints all of them have together */
    /* For each constraint, those of the first placeholder first, the number of `not`s around its kind. */
    uint8_t nots[SSR_CONSTRAINTS];
} ssr_read_tokens_answer;

/* Reading tokens: the placeholders of a token list.
 * Refusals: 1, then the first of 2 to 13 that is met from the left.
 */
ssr_read_tokens_answer ssr_read_tokens(const uint32_t *words, size_t words_length,
                                       const uint8_t *text, size_t text_length);

/* Checking a pair: the refusal. With template_given 0 the pair is its pattern alone, and the template's
 * slices are not looked at.
 * Refusals: 1 to 13 as by reading tokens, the lower where both lists refuse; then 14; then 15.
 */
uint32_t ssr_check_pair(const uint32_t *pattern_words, size_t pattern_words_length,
                        const uint8_t *pattern_text, size_t pattern_text_length,
                        uint32_t template_given,
                        const uint32_t *template_words, size_t template_words_length,
                        const uint8_t *template_text, size_t template_text_length);

typedef struct ssr_raw_code_answer {
    uint32_t refusal;
    size_t length; /* of the code */
} ssr_raw_code_answer;

/* Writing raw code: `out` holds the list's text with every placeholder written as `__placeholder_` and its
 * name.
 * Refusals: 1 to 13 as by reading tokens; then 16.
 */
ssr_raw_code_answer ssr_raw_code(const uint32_t *words, size_t words_length,
                                 const uint8_t *text, size_t text_length,
                                 uint8_t *out, size_t out_length);

/* The file's tree with its facts: the refusal. It uses less than 300 KB of stack, whatever the depth of the
 * tree.
 * Refusals: 18, 19, 20, 21.
 */
uint32_t ssr_check_file(const uint32_t *tree, size_t tree_length,
                        const uint8_t *text, size_t text_length,
                        const uint32_t *facts, size_t facts_length);

/* A rule's tree with its facts: the refusal. The tree is the pattern's where side is SSR_SIDE_PATTERN, else
 * the template's; the code is the list's raw code without WHITESPACE tokens at its ends.
 * With list_given 0 the side has no list: a template that was not given. Its list and text are not looked at,
 * and a tree that is handed in all the same is 18 or 19. A tree without words is absent: 21 if it has facts.
 * Refusals: 1 to 13 of the list as by reading tokens; then 18, 19, 20, 21.
 */
uint32_t ssr_check_rule_tree(uint32_t list_given,
                             const uint32_t *list, size_t list_length,
                             const uint8_t *list_text, size_t list_text_length,
                             uint32_t side,
                             const uint32_t *tree, size_t tree_length,
                             const uint8_t *code, size_t code_length,
                             const uint32_t *facts, size_t facts_length,
                             const uint8_t *fact_text, size_t fact_text_length);

/* Rules are handed in as pairs of a pattern and, if one is given, a template. The directory has a row of
 * SSR_ROW_LENGTHS lengths for each pair; the words are the token lists, the trees and the facts of all pairs,
 * and the bytes their texts and codes, each pair's in the order of its row. Of each form a pair has a
 * pattern's tree and a template's, which may be absent. The rules that are left have numbers from 0 on, by
 * pair and then by form.
 *
 * Their refusals are looked for in stages, each over all pairs before the next. Where several lists or trees
 * refuse in a stage, the lowest of their numbers is given.
 *   1         of the directory
 *   1 to 15   as by checking a pair
 *   18 to 21  as by checking a rule's tree
 *   17
 *   22
 */

typedef struct ssr_build_rules_answer {
    uint32_t refusal;
    size_t rules; /* how many rules are left */
    uint32_t found; /* 1 if there is a rule of the number that was asked for */
    size_t pair; /* the number of its pair, from 0 on */
    size_t form; /* its ssr_form */
    uint32_t template_tree; /* its ssr_template_tree */
} ssr_build_rules_answer;

/* Building rules, with the number of a rule that is asked for. Facts are not looked at.
 * Refusals: the stages up to 17, without 21.
 */
ssr_build_rules_answer ssr_build_rules(const uint32_t *directory, size_t directory_length,
                                       const uint32_t *words, size_t words_length,
                                       const uint8_t *bytes, size_t bytes_length,
                                       size_t rule);

typedef struct ssr_resolve_answer {
    uint32_t refusal;
    uint32_t found; /* 1 if there is such a rule, it has the side, and the side's tree has the element */
    uint32_t resolved; /* 1 if the element is a resolved path */
    uint32_t resolution; /* what that path resolves to */
    uint32_t call; /* 1 if the element is a call that UFCS may match */
    uint32_t function; /* that call's function */
    uint32_t typed; /* 1 if the call has a qualifier type */
    uint32_t qualifier_type; /* that type */
    uint32_t contains_self; /* 1 if the side's tree has a token of kind 11, `self` */
} ssr_resolve_answer;

/* Resolving, with the rule, the ssr_side and the element that are asked for. The fact text is one for all
 * pairs. A rule without a template has no SSR_SIDE_TEMPLATE. Elements are numbered from 0 on, in the order of
 * the tree's words. It uses less than 700 KB of stack.
 * Refusals: the stages.
 */
ssr_resolve_answer ssr_resolve(const uint32_t *directory, size_t directory_length,
                               const uint32_t *words, size_t words_length,
                               const uint8_t *bytes, size_t bytes_length,
                               const uint8_t *fact_text, size_t fact_text_length,
                               size_t rule, uint32_t side, size_t element);

/* A placeholder's binding. */
typedef struct ssr_binding {
    uint32_t bound; /* 1 if the placeholder is bound */
    uint32_t start; /* what it captured: the bytes from start up to end of the file's text */
    uint32_t end;
    uint32_t stars; /* for the receiver of a method call, how often it is dereferenced */
    uint32_t self_kind; /* for that receiver, its ssr_self_kind */
} ssr_binding;

typedef struct ssr_match_node_answer {
    uint32_t refusal;
    uint32_t matched; /* 1 if the node matches; else nothing below is used */
    size_t length; /* how many bytes its noted comments have */
    ssr_binding bindings[SSR_PLACEHOLDERS]; /* in pattern order */
} ssr_match_node_answer;

/* Matching one node of a file with one rule: node is the number of an element of the file's tree. With
 * range_given 0 the range is not looked at; else only a node that lies in it matches, where both ends may be
 * the node's own. `out` holds the texts of the noted comments in turn, without a match nothing. It uses less
 * than 2 MiB of stack.
 * Refusals: the stages, with 18 to 21 of the file's tree among those of the rules'; then 23; last 16.
 */
ssr_match_node_answer ssr_match_node(const uint32_t *directory, size_t directory_length,
                                     const uint32_t *words, size_t words_length,
                                     const uint8_t *bytes, size_t bytes_length,
                                     const uint8_t *fact_text, size_t fact_text_length,
                                     const uint32_t *tree, size_t tree_length,
                                     const uint8_t *text, size_t text_length,
                                     const uint32_t *facts, size_t facts_length,
                                     size_t node, size_t rule,
                                     uint32_t range_given, size_t range_start, size_t range_end,
                                     uint8_t *out, size_t out_length);

typedef struct ssr_job_answer {
    uint32_t refusal;
    uint32_t asked; /* 1 if a parse is missing: `out` holds the text to parse; else it holds the edit list */
    uint32_t kind; /* the kind of its template's root: 64 to 1023 for an expression, up to 2047 for an item */
    size_t length; /* how many bytes the text or the edit list has */
} ssr_job_answer;

/* A job: candidates are matched, what they match is nested and rendered, and the edit list is written.
 *
 * The candidates are SSR_CANDIDATE_WORDS words each, the number of a node of the file's tree and that of a
 * rule that is left; their order is no matter. One that does not match adds nothing and is no refusal. The
 * range is as in matching one node. The parses are words that point into the parse text: each has a kind, a
 * text, and the ranges of all nodes of the tree that the text is parsed as, none if it does not parse.
 *
 * The edit list has one edit for each outer match, in rising order and without overlap. An edit is three
 * words, little-endian, and the bytes of its replacement:
 *   kind 5    the match's start in the file
 *   kind 6    its end
 *   kind 7    how many bytes the replacement has
 * To apply the list, put each replacement in place of the bytes from start up to end. Without a match the
 * list is empty.
 *
 * Where the rendering of a template whose root is an expression or an item has no parse, the answer is asked:
 * `out` holds that text. Parse it as an expression or as an item, add that parse with the kind and the text
 * that were answered (and without ranges if it does not parse) to those handed in, and call again; it is not
 * asked for a second time.
 *
 * It uses less than 2 MiB of stack.
 * Refusals: the stages (1 to 15; 18 to 21, with those of the file's tree; 17; 22); then 24, 25, 26, 27, 28;
 * then, as the list is written from front to back, the first that is met of 29, 30 and the answer asked.
 */
ssr_job_answer ssr_job(const uint32_t *directory, size_t directory_length,
                       const uint32_t *words, size_t words_length,
                       const uint8_t *bytes, size_t bytes_length,
                       const uint8_t *fact_text, size_t fact_text_length,
                       const uint32_t *tree, size_t tree_length,
                       const uint8_t *text, size_t text_length,
                       const uint32_t *facts, size_t facts_length,
                       const uint32_t *parses, size_t parses_length,
                       const uint8_t *parse_text, size_t parse_text_length,
                       const uint32_t *candidates, size_t candidates_length,
                       uint32_t range_given, size_t range_start, size_t range_end,
                       uint8_t *out, size_t out_length);

/* The whole-file walk: a job whose candidates are every node of the file's tree, the root and empty nodes too,
 * with every rule that is left. Parses, range, edit list and the answer asked are as for a job. Its candidates
 * have no limit of their own: what is counted is those that match, before they are nested.
 *
 * It uses less than 2 MiB of stack.
 * Refusals: the stages (1 to 15; 18 to 21, with those of the file's tree; 17; 22); then 24 over SSR_RULES rules;
 * 25 of the range; 27; 24 over SSR_MATCHES matches; 28; then, as the list is written from front to back, the
 * first that is met of 29, 30 and the answer asked.
 */
ssr_job_answer ssr_walk(const uint32_t *directory, size_t directory_length,
                        const uint32_t *words, size_t words_length,
                        const uint8_t *bytes, size_t bytes_length,
                        const uint8_t *fact_text, size_t fact_text_length,
                        const uint32_t *tree, size_t tree_length,
                        const uint8_t *text, size_t text_length,
                        const uint32_t *facts, size_t facts_length,
                        const uint32_t *parses, size_t parses_length,
                        const uint8_t *parse_text, size_t parse_text_length,
                        uint32_t range_given, size_t range_start, size_t range_end,
                        uint8_t *out, size_t out_length);

#ifdef __cplusplus
}
#endif

#endif
