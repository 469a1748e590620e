/* Loads a patch: rewrites a file by three rules, and prints what was asked for, the edits, and the file then.
 *
 *   rules  S::f($s) ==>> h($s)
 *          old() ==>> new2()
 *          foo($a) ==>> $a.bar()
 *
 * These are document 01's examples M and K. In the file, `old().f()` calls `S::f` with its receiver by `&`.
 *
 * The front end (patch.h) lexes, parses and resolves, and hands over a patch. The loader (loader.h) knows the
 * patch and ssr.h, and parses nothing: a parse that a job asks for is in the patch. Here it lists what may match.
 */
#include "loader.h"

static const patch_texts texts = {
    "use arm::*;\n"
    "\n"
    "fn run() {\n"
    "    old().f();\n"
    "    foo(x + y);\n"
    "}\n",
    {{"S::f($s)", "h($s)"}, {"old()", "new2()"}, {"foo($a)", "$a.bar()"}},
    {"h(&new2())", "new2()", "x + y.bar()"},
};

/* Every node with every rule, which walk.c need not list. Each pair is one rule, since it has one form. */
static void add_candidates(words *candidates, const source *file)
{
    for (size_t i = 0; i < elements(file); i++) {
        if (is_token(file, i)) {
            continue;
        }
        for (size_t rule = 0; rule < COUNT(texts.rules); rule++) {
            add_word(candidates, (uint32_t)i);
            add_word(candidates, (uint32_t)rule);
        }
    }
}

/* Writes the edit list of a patch, and gives its length. There are no parses at first; each one that is asked
 * for is looked up and handed in with the next call.
 */
static size_t run_job(const patch *p, const words *candidates, uint8_t *out, size_t out_length)
{
    static source parses;
    for (;;) {
        ssr_job_answer answer = ssr_job(
            p->rules.directory.at, p->rules.directory.length, p->rules.words.at, p->rules.words.length,
            p->rules.bytes.at, p->rules.bytes.length, p->fact_text.at, p->fact_text.length,
            p->file.words.at, p->file.words.length, p->file.text.at, p->file.text.length,
            p->facts.at, p->facts.length, parses.words.at, parses.words.length, parses.text.at, parses.text.length,
            candidates->at, candidates->length, 0, 0, 0 /* in no range */, out, out_length);
        stop_if_refused("ssr_job", answer.refusal);
        if (!answer.asked) {
            return answer.length;
        }
        add_asked(p, &parses, answer, out);
    }
}

int main(void)
{
    static patch p;
    static words candidates;
    static uint8_t list[4096];

    make_patch(&p, &texts);
    add_candidates(&candidates, &p.file);
    size_t length = run_job(&p, &candidates, list, sizeof list);
    print_edited(&p, list, length);
    return 0;
}
