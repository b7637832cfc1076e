"""Small macros at random, each rule of which declares a struct of its own, and calls of them."""
import random
from dataclasses import dataclass

WORDS = "a b c X Y self crate fn pub r#a _ let".split()
MARKS = ", ; => -> : :: + - * & && | || < > << >> >= >>= = == . .. ..= # ! ? @ ^ /".split()
SEPARATORS = ", ; => + | a : :: -> && ..".split()
FOLLOW = {
    "expr": "=> , ;", "stmt": "=> , ;", "ty": "= => , > >> : ; | as where { [", "path": "= => , > >> : ; | as where { [",
    "pat": "=> , = | if in", "pat_param": "=> , = | if in", "vis": ", a struct fn",
}
FOLLOW["expr_2021"] = FOLLOW["expr"]
PIECES = {
    "ident": "a|b|X|r#a|fn|self|crate|_|async|union",
    "lifetime": "'a|'static|'_",
    "literal": "1|-1|\"s\"|'c'|b\"x\"|true|false|1.5|-2.5|0x1|r#\"x\"#",
    "vis": "|pub|pub(crate)|pub(self)|pub(super)|pub(in a::b)|crate|pub (u8)",
    "block": "{}|{ a }|{ 1; }|{ let x = 1; x }",
    "path": "a|a::b|::a|a::<u8>|Vec<u8>|Vec<Vec<u8>>|<A as B>::C|self::x|crate::a|Fn(A) -> B|super::a|A<'a, 1>|a::<b>::c",
    "ty": "u8|&'a T|&mut T|Vec<Vec<u8>>|fn(u8) -> u8|[u8; 2]|[u8]|(A, B)|()|dyn A + B|impl A|*const T|*mut T|!|_|a!()|a::b|"
          "for<'a> fn(&'a u8)|unsafe extern \"C\" fn()|<A as B>::C|Box<dyn Fn(u8) -> u8 + Send>|&&u8|A<B = C>|A<{ 1 }>",
    "meta": "a|a = 1|a(b, c)|a::b = \"x\"|unsafe(a)|a[b]|a { b }",
    "item": "struct S;|fn f() {}|use a::b;|m!();|m! {}|const A: u8 = 1;|pub enum E { A }|#[a] type T = u8;|impl A for B {}|"
            "mod a;|static mut A: u8 = 1;|unsafe fn f();|extern crate a;|trait T: A {}|macro_rules! r { () => {} }|union U { a: u8 }",
    "expr": "1|a + b * c|a.b(c)|if a { b } else { c }|if let a = b { c }|x::y(1)?|move || a|return|return a|a..b|..|..=b|-1|&a|&mut a|"
            "[1, 2]|{ a }|a as u8|match a { _ => 1 }|S { a: 1 }|a[b]|a.0.1|loop { break }|'a: loop {}|unsafe { a }|const { 1 }|_|"
            "a = b|a += 1|a == b && c|!a|*a|(a)|(a, b)|m!(x)|a::<u8>()|a.await|async { a }|while a < b {}|for a in b {}|a < b|"
            "a as u8 + 1|b\"x\"|break|continue|#[a] b|let a = b|a | b|a..=b|yield|true|-a.b|<A as B>::c()",
    "pat": "_|a|Some(a)|1..=2|1..|&a|a \\| b|\\| a|ref x @ 1|[a, ..]|(a, b)|S { a, .. }|-1|\"s\"|mut a|a::b|&mut a|m!()|..|..=1|"
           "<A as B>::C|const { 1 }|box a|a @ (b \\| c)",
    "stmt": "let a = 1|let a: u8 = 1|a + b|struct S;|fn f() {}|{ a }|{ a } + 1|if a {} else {}|let Some(a) = b else {}|a|use a;|m!()|"
            "m! {}|#[a] let b|let a|return|;|match a {}.b|unsafe { a }",
    "tt": "a|1|+|->|(a b)|[ ]|{ c }|'a|::|=|<<|#|\"s\"|&&|_|..=|>>",
}
PIECES["expr_2021"], PIECES["pat_param"] = PIECES["expr"], PIECES["pat"]
KINDS = list(PIECES)


def pieces(kind):
    return [it.replace("\\|", "|") for it in PIECES[kind].replace("\\|", "\0").split("|") for it in [it.replace("\0", "|")]]


@dataclass
class Part:
    """A part of a matcher: a token, a variable, a group, or a repetition."""

    token: str = ""
    kind: str = ""
    name: str = ""
    opening: str = ""
    parts: list = None
    separator: str = ""
    operator: str = ""


class Maker:
    """Makes macros and calls by a seed."""

    def __init__(self, seed):
        self.random, self.names = random.Random(seed), 0

    def token(self):
        return self.random.choice(WORDS if self.random.random() < 0.5 else MARKS)

    def variable(self):
        self.names += 1
        return Part(kind=self.random.choice(KINDS), name=f"v{self.names}")

    def part(self, depth):
        chance = self.random.random()
        if chance < 0.42:
            return self.variable()
        if depth < 2 and chance < 0.62:
            operator = self.random.choice("**+?")
            has_separator = operator != "?" and self.random.random() < 0.6
            separator = self.random.choice(SEPARATORS) if has_separator else ""
            return Part(parts=self.parts(depth + 1), separator=separator, operator=operator)
        if depth < 2 and chance < 0.7:
            return Part(opening=self.random.choice("([{"), parts=self.parts(depth + 1))
        return Part(token=self.token())

    def parts(self, depth):
        found = []
        for _ in range(self.random.choice((1, 1, 2, 2, 3) if depth else (1, 2, 3, 4))):
            it = self.part(depth)
            found.append(it)
            if it.kind in FOLLOW and self.random.random() < 0.95:
                found.append(Part(token=self.random.choice(FOLLOW[it.kind].replace("{", "").replace("[", "").split())))
        return found

    def rules(self):
        return [self.parts(0) for _ in range(self.random.randint(3, 6))]

    def piece(self, kind):
        return self.random.choice(pieces(self.random.choice(KINDS) if self.random.random() < 0.08 else kind))

    def call(self, parts):
        """What a matcher may match."""
        found = []
        for it in parts:
            if it.kind:
                found.append(self.piece(it.kind))
            elif it.opening:
                found += [it.opening, *self.call(it.parts), {"(": ")", "[": "]", "{": "}"}[it.opening]]
            elif it.operator:
                count = self.random.choice({"*": (0, 1, 2, 3), "+": (1, 1, 2, 3), "?": (0, 1)}[it.operator])
                for number in range(count):
                    if number and it.separator:
                        found.append(it.separator)
                    found += self.call(it.parts)
            else:
                found.append(it.token)
        return found

    def changed(self, words):
        """The same with a word more or less, or another one; delimiters stay."""
        places = [at for at, it in enumerate(words) if it not in tuple("()[]{}")]
        if not places or self.random.random() < 0.25:
            at = self.random.randint(0, len(words))
            return [*words[:at], self.piece("tt"), *words[at:]]
        at = self.random.choice(places)
        other = [] if self.random.random() < 0.5 else [self.piece("tt")]
        return [*words[:at], *other, *words[at + 1:]]

    def call_text(self, rules):
        words = self.call(self.random.choice(rules))
        if self.random.random() < 0.4:
            words = self.changed(words)
        text = ""
        for it in words:
            is_joined = text and text[-1:] in "<>=&|.:+-" and it[:1] in "<>=&|.:+-" and self.random.random() < 0.2
            text += it if is_joined or not text else f" {it}"
        return text


def matcher_text(parts):
    found = []
    for it in parts:
        if it.kind:
            found.append(f"${it.name}:{it.kind}")
        elif it.opening:
            found.append(it.opening + matcher_text(it.parts) + {"(": ")", "[": "]", "{": "}"}[it.opening])
        elif it.operator:
            found.append(f"$({matcher_text(it.parts)}){it.separator}{it.operator}")
        else:
            found.append(it.token)
    return " ".join(found)


def text_of(seed, macros, calls):
    """A file of so many macros, a line each, and so many calls of each, a line and a module each; and for each line of a call
    the line of its macro."""
    maker, lines, asked = Maker(seed), ["#![allow(warnings)]"], {}
    made = []
    for number in range(macros):
        rules = maker.rules()
        written = "; ".join(f"({matcher_text(it)}) => {{ struct R{at}; }}" for at, it in enumerate(rules))
        lines.append(f"macro_rules! m{number} {{ {written} }}")
        made.append((rules, len(lines)))
    for number, (rules, line) in enumerate(made):
        for _ in range(calls):
            lines.append(f"mod c{len(lines) + 1} {{ m{number}! {{ {maker.call_text(rules)} }} }}")
            asked[len(lines)] = line
    return "\n".join(lines) + "\n", asked
