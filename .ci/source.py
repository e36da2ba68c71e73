"""Reads the sources of Rattle for `.ci/words`: their code, their structs and their functions."""

import functools
import re


def closed(text, at, pair="{}"):
    """The place after the bracket that closes the one at a place."""
    depth = 0
    for bracket in re.compile(f"[{re.escape(pair)}]").finditer(text, at):
        depth += 1 if bracket[0] == pair[0] else -1
        if depth == 0:
            return bracket.end()
    return len(text)


@functools.lru_cache(maxsize=None)
def code(text):
    """The code of a file, line for line: without comments, texts, clauses, fields of contracts, and attributes but `#[cycle]`."""

    def without(match):
        return ('""' if match[0][0] == '"' else "") + "\n" * match[0].count("\n")

    text = re.sub(r'"(\\.|[^"\\])*"|//[^\n]*|\'(\\.|[^\'\\])\'|#!?\[(?!cycle)[^\]]*\]', without, text, flags=re.S)
    clause = re.compile(r"(\bpub )?\bghost use\b[^;]*;|((\bpub )?\bghost|\brequires|\bensures)\b[^{]*")
    start = 0
    while match := clause.search(text, start):
        start, end = match.span()
        while text[end : end + 1] == "{":
            end = closed(text, end)
            end = re.compile(r"( = (?=\{))?").match(text, end).end()
        text = text[:start] + "\n" * text.count("\n", start, end) + text[end:]
    return text


@functools.lru_cache(maxsize=None)
def structs(text):
    """The structs and enums of a file, each with its fields or variants, and the types of these."""
    found = []
    for head in re.finditer(r"\b(?:struct|enum) (\w+)[^({;]*([({])", text):
        pair = "{}" if head[2] == "{" else "()"
        body = text[head.end() : closed(text, head.end() - 1, pair) - 1]
        while (inner := re.sub(r"([(\[{<][^()\[\]{}<>]*),", r"\1\0", body)) != body:
            body = inner
        fields = [" ".join(field.split()).replace("\0", ",") for field in body.split(",") if field.strip()]
        name = re.compile(r"^(pub(\(crate\))? )?\w+:? ?" if pair == "{}" else "^")
        found.append((head[1], fields, [name.sub("", field) for field in fields]))
    return found


def functions(text):
    """The functions of a file that have a body: the head of the impl, the name, the head, the body and its place."""
    impls = [(impl.start(), closed(text, impl.end()), impl[0]) for impl in re.finditer(r"(?m)^impl\b[^{]*(?=\{)", text)]
    for head in re.finditer(r"\bfn (\w+)(<[^(]*>)?(?=\()", text):
        body = re.compile(r"([^{;\[]|\[[^\]]*\])*").match(text, closed(text, head.end(), "()")).end()
        if text[body : body + 1] == "{":
            impl = next((impl for start, end, impl in impls if start < body < end), "")
            yield impl, head[1], text[head.start() : body], text[body : closed(text, body)], body


def own_calls(impl, name, head, body):
    """The places of a body where its function is called or is a value."""
    # A method of a field is one of another type, and so is that of a type that the head of the impl doesn't name.
    types = "|".join(["Self", *re.findall(r"\w+", impl)])
    body = re.sub(rf"\bself\.\w[\w.]*\.|\b(?!({types})::)[A-Z]\w*::", lambda other: "_" * len(other[0]), body)
    is_bound = re.search(rf"\b{name}: |(let|for) [^=;]*\b{name}\b|\b{name}\b[^\n(]*=>", head + body)
    ends = r"\(|::<" if is_bound else r"\(|::<|[;,)]"
    return [call.start() for call in re.finditer(rf"(?<!\w)(?<!self\.){name}(?={ends})|\bself\.{name}(?=\(|::<)", body)]
