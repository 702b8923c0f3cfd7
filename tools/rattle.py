"""How the scripts take code apart: functions, public items and examples of .rt files, and calls of .antt files."""
import collections
import re

# A comment, a text or a character. The mark of a lifetime and the prime of a name are neither.
NO_CODE = re.compile(r"""//[^\n]*|/\*.*?\*/|\bb?r(\#*)".*?"\1|"(?:\\.|[^"\\])*"|"""
                     r"""(?<![\w'])'(?:\\.[^']*|[^\\'\n])'""", re.S)
OWNER = re.compile(r"^(?:impl\b(?:<.*?>)?(?=\s[^+])|(?:pub(?:\([^)]*\))? )?trait\s)\s*([^{]*?)\s*(?:where[^{]*)?\{",
                   re.M | re.S)
FUNCTION = re.compile(r"^ *((?:pub(?:\([^)]*\))? )?)(?:const |unsafe )*fn (\w+)", re.M)
CLAUSE = re.compile(r"\b(?:requires|ensures)\b\*?\s*[\w-]*\s*\{")
# A function that is no ghost: the head of the trait or `impl` that it stands in, if any; its line; its parameters and
# answer; its clauses; and how many lines stand between its braces.
Function = collections.namedtuple("Function", "owner is_public name line head clauses inside")
ITEM = re.compile(r"\s*pub (?:const |unsafe )*(fn|struct|enum|trait|const|type|mod) (\w+)")
# What stands right inside the braces of a public item, and is public with it: its name, and what it is.
PARTS = {"enum": ("case", re.compile(r"\s*([A-Z]\w*)")), "struct": ("field", re.compile(r"\s*pub (\w+):")),
         "trait": ("item", re.compile(r"\s*(?:fn|type|const) (\w+)"))}
# A block in a doc comment, with the word behind its fence; and what ends a line of code.
EXAMPLE = re.compile(r"^ *//[/!] ?```(.*)\n((?: *//[/!].*\n)*?) *//[/!] ?```", re.M)
REMARK = re.compile(r"(?:^|\s)//.*")


def without_comments(text):
    """Returns the text of a .rt file with spaces in the place of comments and texts, so that each line stays a line."""
    return NO_CODE.sub(lambda found: re.sub(r"[^\n]", " ", found[0]), text)


def closing(code, at, pair="{}"):
    """Returns the place after the bracket that closes the one at this place. An arrow closes none."""
    depth = 0
    for place in range(at, len(code)):
        depth += (code[place] == pair[0]) - (code[place] == pair[1] and code[place - 1:place + 1] != "->")
        if depth == 0:
            return place + 1
    raise ValueError("a bracket is not closed")


def depth_of(text):
    """How many brackets this text opens and leaves open."""
    return sum(text.count(mark) for mark in "([{") - sum(text.count(mark) for mark in ")]}")


def end_of_head(code, at):
    """Returns where the head of a function ends, with its clauses: at its body, or where it has none."""
    depth = 0
    while depth or code[at] not in "{;":
        clause = None if depth else CLAUSE.match(code, at)
        if clause:
            at = closing(code, clause.end() - 1)
            continue
        depth += {"(": 1, "[": 1, ")": -1, "]": -1}.get(code[at], 0)
        at += 1
    return at


def functions(text):
    """Yields each function of a .rt file. Those of a trait, and of its `impl` for a type, are public too."""
    code = without_comments(text)
    owners = [(found.start(), closing(code, found.end() - 1), found) for found in OWNER.finditer(code)]
    for begun in FUNCTION.finditer(code):
        owner = next((it for start, end, it in owners if start < begun.start() < end), None)
        of_trait = owner and (" for " in owner[0] or "trait" in owner[0].split("{")[0])
        at, body, clauses = begun.end(), end_of_head(code, begun.end()), []
        first = CLAUSE.search(code, at, body)
        while clause := CLAUSE.search(code, at, body):
            at = closing(code, clause.end() - 1)
            clauses.append(" ".join(re.sub(r"//[^\n]*", "", text[clause.start():at]).split()))
        head = code[begun.end():first.start() if first else body]
        inside = code.count("\n", body, closing(code, body)) - 1 if code[body] == "{" else 0
        yield Function(" ".join(owner[1].split()) if owner else "", begun[1] == "pub " or bool(of_trait), begun[2],
                       code.count("\n", 0, begun.start()) + 1, " ".join(head.split()), clauses, inside)


def public_items(code):
    """Yields line, kind and name of each public item, and of the cases, fields and trait items in it."""
    kind, depth = None, 0
    for number, line in enumerate(code.split("\n"), 1):
        if item := ITEM.match(line):
            (kind, name), depth = item.groups(), 0
            yield number, kind, name
        elif kind in PARTS and depth == 1 and (part := PARTS[kind][1].match(line)):
            yield number, PARTS[kind][0], f"{name}::{part[1]}"
        depth += depth_of(line)
        if depth <= 0 and re.search(r"[;}]", line):
            kind = None


def has_doc(lines, number):
    """Whether the item at this line has a doc comment, above its attributes and plain comments."""
    above = number - 2
    while above >= 0 and re.match(r"\s*(?:#\[|//(?!/))", lines[above]):
        above -= 1
    return above >= 0 and lines[above].lstrip().startswith("///")


def lines_of(text):
    """Returns the lines of code, without comments and with single spaces; none that is empty then."""
    lines = (" ".join(REMARK.sub("", line).split()) for line in text.split("\n"))
    return [line for line in lines if line]


def follow(lines, code, gap=2):
    """Whether the lines stand in the code in their order, with so many others between two of them at most."""
    pattern = rf"(?:\n.*){{0,{gap}}}\n".join(map(re.escape, lines))
    return lines[0] in code and re.search(f"^{pattern}$", code, re.M) is not None


def examples(text):
    """Yields the blocks of code in the doc comments of a .rt file: the number of the first line, and the lines."""
    for found in EXAMPLE.finditer(text):
        if not found[1]:
            yield text.count("\n", 0, found.start()) + 2, lines_of(re.sub(r"^ *//[/!] ?", "", found[2], flags=re.M))


# In .antt files.
COMMENT = re.compile(r"(?:^|(?<=\s))--.*$", re.M)
# A line within a module that begins an item: a name with its type, or with patterns and what they give.
BEGINS = re.compile(r"\s+(?!let |in )((?:(?:pub|abbrev|unfoldable|pattern) )*"
                    r"[^\s(){}\[\].,;:=]+(?: [^:={}→λ]*)?) [:=](?: |$)")
LINE_END = "⏎"
GROUP = re.compile(r"[({\[]([^{}()\[\]]*)[)}\]]")
LAMBDA = re.compile(r"λ\s[^.]*?\.(?=\s)")
WORDS = set("let in elim as do where use open module data abbrev pub unfoldable unfolding pattern mutual ruleset "
            "if then else".split())


def is_argument(token):
    """Whether a token is a name, a number or a group, and no sign between two terms."""
    return token not in WORDS and any(it.isalpha() or it in "_●◌⊥⊤?" or it.isdecimal() for it in token)


def calls_in(flat):
    """Yields the calls of a text without brackets: the name, and how many arguments follow it on its line. Names before
    a colon are bound there."""
    run = []
    for token in [*re.sub(r"[,;@]", " , ", LAMBDA.sub("● | ", flat)).split(), "|"]:
        if token == LINE_END or is_argument(token):
            run.append(token)
            continue
        call = " ".join(run).strip(f" {LINE_END}").partition(LINE_END)[0].split()
        if call and token != ":" and re.search(r"[^\W\d_]", call[0]):
            yield call[0], len(call) - 1
        run = []


def items(text):
    """Yields the items of a .antt file: declarations, and the clauses of functions."""
    item, depth = [], 0
    for line in COMMENT.sub("", text).split("\n"):
        begins = BEGINS.match(line)
        if depth == 0 and (line[:1].strip() or begins and depth_of(begins[1]) == 0):
            yield f" {LINE_END} ".join(item)
            item = []
        item.append(line)
        depth += depth_of(line)
    yield f" {LINE_END} ".join(item)


def without_patterns(item):
    """Leaves out what stands before the equals sign of a clause: patterns are no calls."""
    for found in re.finditer(r" ([:=]) ", item):
        if depth_of(item[:found.start()]) == 0:
            return item[found.start():] if found[1] == "=" else item
    return item


def calls(text):
    """Yields the calls of a .antt file: the name, and how many arguments follow it on its line. A group in parentheses
    is an argument, and one in braces is none, since it is given by name."""
    for item in items(text.replace("[]", "⊤").replace("⟦", "(").replace("⟧", ")")):
        flat = without_patterns(item)
        while found := GROUP.search(flat):
            yield from calls_in(found[1])
            group = "●" if found[0][0] == "(" else " "
            end = f" {LINE_END} " if LINE_END in found[1] else ""
            flat = flat[:found.start()] + group + end + flat[found.end():]
        yield from calls_in(flat)
