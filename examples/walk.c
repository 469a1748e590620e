/* Loads a patch by walking its whole file: there is no list of candidates. It prints what was asked for, the
 * edits, and the file then.
 *
 *   rules  S::f($s) ==>> h($s)
 *          old() ==>> new2()
 *          foo($a) ==>> $a.bar()
 *
 * In the file, matches lie in each other: what is inside is rewritten first.
 *
 * Front end (patch.h) and loader (loader.h) are those of job.c. The loader hands over the file with its facts and
 * the rules; every node is tried with every rule.
 */
#include "loader.h"

static const patch_texts texts = {
    "use arm::*;\n"
    "\n"
    "fn run() {\n"
    "    foo(old().f());\n"
    "    foo(foo(x));\n"
    "}\n",
    {{"S::f($s)", "h($s)"}, {"old()", "new2()"}, {"foo($a)", "$a.bar()"}},
    {"new2()", "h(&new2())", "h(&new2()).bar()", "x.bar()", "x.bar().bar()"},
};

/* Writes the edit list of a patch, and gives its length. There are no parses at first; each one that is asked
 * for is looked up and handed in with the next call.
 */
static size_t run_walk(const patch *p, uint8_t *out, size_t out_length)
{
    static source parses;
    for (;;) {
        ssr_job_answer answer = ssr_walk(
            p->rules.directory.at, p->rules.directory.length, p->rules.words.at, p->rules.words.length,
            p->rules.bytes.at, p->rules.bytes.length, p->fact_text.at, p->fact_text.length,
            p->file.words.at, p->file.words.length, p->file.text.at, p->file.text.length,
            p->facts.at, p->facts.length, parses.words.at, parses.words.length, parses.text.at, parses.text.length,
            0, 0, 0 /* in no range */, out, out_length);
        stop_if_refused("ssr_walk", answer.refusal);
        if (!answer.asked) {
            return answer.length;
        }
        add_asked(p, &parses, answer, out);
    }
}

int main(void)
{
    static patch p;
    static uint8_t list[4096];

    make_patch(&p, &texts);
    size_t length = run_walk(&p, list, sizeof list);
    print_edited(&p, list, length);
    return 0;
}
