#!/usr/bin/env python3
"""Brings the names of the repository's own definitions and lemmas to the spelling of its library: words in snake case, types and facts in camel
case, and a dash in a lemma's name only between two names.

usage: rename_names.py [--check] FOLDER

FOLDER has crates/. It reads what specs/ and proofs/ declare, and rewrites these names in .antt files, in the clauses and `ghost use` lines of
.rt files, in comments, in must-fail edits, and between backticks in README.md and docs/. Functions of src/, exported names, strings, inputs and
outputs are not touched. --check prints the table and writes nothing. Names that would fall together are printed, and then nothing is written.
A second run changes nothing.
"""
import collections
import glob
import os
import re
import sys

SEGMENT = r"[^\s(){}.;,@\"«»\[\]\\`]+"
WORD = re.compile(r"\"[^\"\n]*\"|«[^»]*»|\.?" + SEGMENT + r"(?:\." + SEGMENT + r")*")
DECLARED = re.compile(
    r"(?m)^(?:pub )?(abbrev |unfoldable )?(?:pub )?(?:(record|data) (?:pub )?)?([^\s:({]+)((?: *[({][^\n=]*?[)}])*) *(?::|where)\s*([^\n]*)"
)
FIELD = re.compile(r"(?m)^  (?:pub )?([^\s:({]+) : ([^\n]*)$")
# Words of the library whose names the lemmas join.
THEIRS = set("length drop take append map reverse get_or set replicate sum count add mul sub le lt eq".split())
# Where the rule would give a name that is taken.
GIVEN = {
    "selfKind": "self_kind_at",
    "isCall": "is_a_call",
    "isNode": "is_a_node",
    "isToken": "is_a_token",
    "isTree": "is_tree_of",
    "rightText": "has_right_text",
}


def read(path):
    with open(path, encoding="utf-8", newline="") as it:
        return it.read()


def files(root, pattern):
    return sorted(p for p in glob.glob(os.path.join(root, pattern), recursive=True) if "/out/" not in p)


def snake(word):
    return re.sub(r"(?<=[a-z0-9])([A-Z])", lambda m: "_" + m[1].lower(), word)


def blocks_of(text):
    """Returns the declarations of a file, also those below a `module _ .. where` or `mutual`."""
    out = []
    for block in re.split(r"\n(?=\S)", text):
        if re.match(r"(?:(?:pub )?module|(?:unfoldable |abbrev )?mutual)\b", block):
            out += blocks_of(re.sub(r"(?m)^  ", "", block.partition("\n")[2]))
        else:
            out.append(block)
    return out


def declared(root):
    """Returns the names by kind: 'def', 'type', 'lemma', 'field', 'constructor'."""
    out = collections.OrderedDict()
    for path in files(root, "crates/*/specs/*.antt") + files(root, "crates/*/proofs/*.antt") + files(root, "crates/*/proofs/**/Proof.antt"):
        text = re.sub(r"(?m)^ *--.*$", "", read(path))
        local = path.endswith("Proof.antt")
        for block in blocks_of(text):
            record = re.match(r"(?:pub )?record (?:pub )?\S+.*?\bwhere *\n", block, re.S)
            if record:
                for f in FIELD.finditer(block, record.end()):
                    out.setdefault(f[1], "field")
            m = DECLARED.match(block)
            if not m or m[3] in ("use", "mod", "infix", "infixl", "infixr", "unfolding", "ruleset"):
                continue
            signature = block.split("\n" + m[3])[0] if "\n" + m[3] in block else block
            result = re.split(r"→", signature.split(":", 1)[1])[-1].strip() if ":" in signature else ""
            if m[2]:
                kind = "type"
                for f in FIELD.finditer(block):
                    out.setdefault(f[1], "constructor" if m[2] == "data" else "field")
            elif m[1]:
                if local and re.match(r"(?:tie|\S+-lts)\.|Measures |ℕ → In ", signature.split(":", 1)[1].strip()):
                    continue
                kind = "fact" if re.match(r"Type\b", result) else "def"
            else:
                if local and re.search(r"\b(?:tie|\S+-lts)\.Need|statement M", signature.split(":", 1)[1], re.S):
                    continue
                kind = "lemma"
            if out.get(m[3]) not in ("def", "fact", "type"):
                out[m[3]] = kind
    return out


def respelled(name, kind, kinds):
    if name in GIVEN:
        return GIVEN[name]
    if re.fullmatch(r"◌[A-Za-z]+◌", name):
        return snake(name)
    if not re.fullmatch(r"[A-Za-z0-9_'′-]+", name):
        return name
    name = name.replace("′", "'")
    if kind in ("fact", "type"):
        return re.sub(r"[-_](\w)", lambda m: m[1].upper(), name[0].upper() + name[1:])
    parts = name.split("-")
    defined = ("def", "fact", "type", "constructor")
    is_name = lambda it: it in THEIRS or kinds.get(it) in defined or kinds.get(it.split("_")[-1]) in defined or it[:1].isupper()
    out = ""
    for i, part in enumerate(parts):
        new = part
        if kinds.get(part) in ("fact", "type"):
            new = respelled(part, kinds[part], kinds)
        elif not part[:1].isupper():
            new = snake(part)
        if i:
            joins = kind == "lemma" and is_name(parts[i - 1]) and is_name(part)
            out += "-" if joins else "_"
        out += new
    return out


def clauses(text):
    """Returns the spans of a .rt file that hold antt: `ghost use` lines, clauses and comments."""
    spans = [m.span() for m in re.finditer(r"(?m)^[ \t]*ghost use [^;]*;|//[^\n]*", text)]
    for m in re.finditer(r"(?m)^[ \t]*(?:requires|ensures|ghost)\b\*?[^\n{]*\{", text):
        deep, i = 0, m.end() - 1
        while i < len(text):
            deep += (text[i] == "{") - (text[i] == "}")
            if not deep:
                break
            i += 1
        spans.append((m.start(), i + 1))
    return sorted(spans)


def rewritten(text, table, fields, aliases):
    def turn(m):
        word = m[0]
        if word[0] in "\"«":
            return word
        parts = word.split(".")
        if not parts[0]:
            return ".".join(fields.get(it, it) for it in parts)
        is_path = parts[0] in aliases or parts[0] == "Rattle"
        first = table.get(parts[0], fields.get(parts[0], parts[0]))
        return ".".join([first] + [(table if is_path else fields).get(it, it) for it in parts[1:]])

    return WORD.sub(turn, text)


def main(argv):
    check = "--check" in argv
    root = [a for a in argv if a != "--check"][0]
    kinds = declared(root)
    table, fields, operators = {}, {}, {}
    for name, kind in kinds.items():
        new = respelled(name, kind, kinds)
        while respelled(new, kind, kinds) != new:
            new = respelled(new, kind, kinds)
        if new != name:
            (fields if kind == "field" else table)[name] = new
            # A name may be a field's and a definition's.
            if re.fullmatch(r"[a-z]+[A-Z]\w*", name):
                fields[name] = new
            if name.startswith("◌"):
                operators[name.strip("◌")] = new.strip("◌")
    # A lemma that would have a definition's name is marked.
    taken = {table.get(it, it) for it, kind in kinds.items() if kind not in ("lemma", "field")}
    for old, kind in kinds.items():
        if kind == "lemma" and table.get(old, old) in taken:
            table[old] = table.get(old, old) + "_lem"
    back = collections.defaultdict(list)
    for old, new in table.items():
        back[new].append(old)
    bad = [(new, olds) for new, olds in back.items() if len(olds) > 1 or (new in kinds and kinds[new] not in ("field", "constructor") and new not in table)]
    # (a definition of another crate may have an operator's word)
    table.update(operators)
    params = set()
    for path in files(root, "crates/*/src/**/*.rt"):
        text = re.sub(r"//[^\n]*", "", read(path))
        params |= set(re.findall(r"\b(\w+): ", text)) | set(re.findall(r"\blet (?:mut )?(\w+)", text))
    for new in back:
        if new in params and any(kinds[it] != "lemma" for it in back[new]):
            bad.append((new, back[new] + ["(a parameter, field or local of src/)"]))
    for new, olds in bad:
        print("falls together:", new, *olds)
    if check:
        for old, new in list(table.items()) + list(fields.items()):
            print(old, "->", new)
    if bad:
        return 1
    if check:
        return 0
    all_names, crates = table, set(os.listdir(os.path.join(root, "crates")))
    for path in files(root, "crates/*/**/*.antt") + files(root, "crates/*/src/**/*.rt") + files(root, "crates/*/must-fail/*.edit") + files(root, "docs/**/*.md") + files(root, "README.md"):
        if "/docs/src/" in path or path.endswith("docs/PORT.md"):
            continue
        text = read(path)
        aliases = set(re.findall(r"(?m)^(?:ghost )?use Rattle\.\S+ as ([^\s;]+)", text))
        # What comes from elsewhere keeps its name.
        foreign = set()
        for module, names in re.findall(r"(?m)^(?:ghost )?use ([^\s{]+)\.\{([^}]*)\}", text):
            if module.split(".")[:1] != ["Rattle"] or module.split(".")[1] not in crates:
                foreign |= {it.split(" as ")[0].strip() for it in names.split(",")}
        table = {old: new for old, new in all_names.items() if old not in foreign}
        if path.endswith(".rt"):
            out, at = "", 0
            for a, b in clauses(text):
                if a < at:
                    continue
                out += text[at:a] + rewritten(text[a:b], table, fields, aliases)
                at = b
            new = out + text[at:]
        elif path.endswith(".md"):
            new = re.sub(r"`[^`\n]*`", lambda m: rewritten(m[0], table, fields, aliases), text)
        else:
            new = rewritten(text, table, fields, aliases)
        if new != text:
            with open(path, "w", encoding="utf-8", newline="") as it:
                it.write(new)
    print(len(table), "names and", len(fields), "fields")
    return 0


if __name__ == "__main__":
    raise SystemExit(main(sys.argv[1:]))
