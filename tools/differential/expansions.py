"""Items of texts, as lists of tokens: those that `rustc -Zunpretty=expanded` prints, and those that `defmap expand --json`
makes of the calls of a file.

An item ends with a semicolon or with braces, outside of all delimiters. Modules, extern blocks, traits and implementations are
opened: what stands in them counts as items of their own, and what is before their braces as one, without its attributes. Definitions
of macros and calls are left out. Of a doc comment counts the attribute, without its text; a comma before a closing delimiter
or behind braces does not count, which rustc prints in its own way, nor a second semicolon, nor how operators are joined.
"""
import json
import os
import re
import subprocess

TOKEN = re.compile(r"""
  (?P<doc>///(?!/)[^\n]*|/\*\*(?![*/]).*?\*/) | (?P<inner>//![^\n]*|/\*!.*?\*/)
  | (?P<blank>\s+|//[^\n]*|/\*.*?\*/)
  | (?P<raw>b?c?r(?P<marks>\#*)".*?"(?P=marks))
  | (?P<string>[bc]?"(?:\\.|[^"\\])*") | (?P<char>b?'(?:\\u\{[^}]*\}|\\.[0-9a-fA-F]?|[^'\\])')
  | (?P<lifetime>'(?:r\#)?\w+) | (?P<number>[0-9][\w]*(?:\.[0-9][\w]*)?) | (?P<word>(?:r\#)?[^\W\d]\w*) | (?P<mark>.)
""", re.X | re.S)
CLOSING = {"(": ")", "[": "]", "{": "}"}
OPENED = {"mod", "extern", "trait", "impl"}
ATTRIBUTE = ["[", "doc", "=", '""', "]"]
PRELUDE = re.compile(r"#!\[feature\(prelude_import\)\]|(#\[macro_use\])?\s*extern crate std;|#\[prelude_import\]\s*use [^;]*;")


def tokens_of(text):
    """The tokens of a text, each as it is written."""
    found = []
    for it in TOKEN.finditer(text):
        kind = it.lastgroup if it.lastgroup != "marks" else "raw"
        if kind == "doc":
            found += ["#", *ATTRIBUTE]
        elif kind == "inner":
            found += ["#", "!", *ATTRIBUTE]
        elif kind != "blank":
            found.append(it[0])
    return found


def behind(tokens, at):
    """What is behind the tree at a place."""
    if tokens[at] not in CLOSING:
        return at + 1
    depth = 0
    while at < len(tokens):
        depth += (tokens[at] in CLOSING) - (tokens[at] in CLOSING.values())
        at += 1
        if depth == 0:
            break
    return at


def plain(tokens):
    """Tokens without commas before closing delimiters and behind braces, without empty statements, and without the text of
    `doc` attributes."""
    kept = []
    for at, token in enumerate(tokens):
        if token == "," and (tokens[at + 1:at + 2] and tokens[at + 1] in ")]}>" or kept[-1:] == ["}"]):
            continue
        if token == ";" and kept[-1:] == [";"]:
            continue
        if kept[-2:] == ["doc", "="] and token.endswith('"'):
            token = '""'
        kept.append(token)
    return kept


def cut(tokens):
    """The items of some tokens."""
    items, first, at = [], 0, 0
    while at < len(tokens):
        is_brace, is_inner = tokens[at] == "{", tokens[at] == "#" and tokens[at + 1:at + 2] == ["!"] and at == first
        if is_inner:
            at = behind(tokens, at + 2)
        else:
            at = behind(tokens, at)
        word = [it for it in tokens[first:at] if it in ("const", "static", "type", "use", "let")]
        ends = is_inner or tokens[at - 1] == ";" or is_brace and not (word and not is_body(tokens[first:at]))
        if ends:
            items.append(tokens[first:at])
            first = at
    if first < len(tokens):
        items.append(tokens[first:])
    return items


def head_of(item):
    """Where an item begins behind its attributes and its visibility."""
    at = 0
    while at < len(item) and item[at] == "#":
        at = behind(item, at + 1 + (item[at + 1:at + 2] == ["!"]))
    if item[at:at + 1] == ["pub"]:
        at += 1
        if item[at:at + 1] == ["("]:
            at = behind(item, at)
    return at


def is_body(item):
    """Whether the braces that an item ends with are its body: not those of a value, or of a group of imports."""
    at = head_of(item)
    words = item[at:]
    if words[:1] in (["static"], ["type"], ["use"]):
        return False
    return words[:1] != ["const"] or any(it in words[1:4] for it in ("fn", "trait", "impl")) or words[1:2] == ["unsafe"]


def kind_of(item):
    """What opens or leaves out an item: its kind."""
    at = head_of(item)
    if item[at:at + 2] == ["macro_rules", "!"]:
        return "definition"
    for place in range(at, len(item)):
        if item[place] == "!" and place > at and item[place + 1:place + 2] and item[place + 1] in CLOSING:
            return "call"
        if not re.match(r"[\w:]|\$|r#", item[place]):
            break
    words = [it for it in item[at:at + 4]]
    for word in words:
        if word in OPENED and item[-1] == "}" and not (word == "extern" and "fn" in words):
            return "opened"
        if word not in ("unsafe", "auto", "extern", "default", "const") and not word.startswith('"'):
            break
    return "item"


def flat(tokens):
    """The items of some tokens, and those in their modules, traits and so on."""
    found, left = [], cut(tokens)
    while left:
        item = left.pop()
        kind = kind_of(item)
        if kind == "opened":
            opening = next(at for at in range(head_of(item), len(item)) if item[at] == "{")
            found.append(tuple(plain(item[head_of(item):opening])))
            left += cut(item[opening + 1:-1])
        elif kind == "item" and item != [";"] and item[:2] != ["#", "!"]:
            found.append(tuple(plain(item)))
    return sorted(found)


def by_rustc(path, edition, more=()):
    """The items of a file that rustc expands, or the first error."""
    words = ["rustc", "-Zunpretty=expanded", "--edition", edition, "--crate-type", "lib", "-Awarnings", path, *more]
    run = subprocess.run(words, capture_output=True, text=True, env={**os.environ, "RUSTC_BOOTSTRAP": "1"}, check=False)
    if run.returncode:
        return None, (re.findall(r"^error(?:\[\w+\])?: (.*)$", run.stderr, re.M) + ["?"])[0]
    return flat(tokens_of(PRELUDE.sub(" ", run.stdout))), None


def by_defmap(program, path, edition, more=()):
    """The items of a file and of its expansions, or the first fault."""
    words = [program, "expand", path, "--edition", edition, "--json", *more]
    run = subprocess.run(words, capture_output=True, text=True, check=False)
    if run.returncode not in (0, 1):
        return None, f"status {run.returncode}: {run.stderr}"
    with open(path) as file:
        found = flat(tokens_of(file.read()))
    for row in map(json.loads, run.stdout.splitlines()):
        if row["fault"]:
            return None, row["fault"]
        found += flat([it for item in row["items"] for token in item["tokens"] for it in tokens_of(token["text"])])
    return sorted(found), None
