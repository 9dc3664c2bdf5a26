"""Finds the functions of a text that `rt fmt` has laid out, and the names that the prover gives them."""

import dataclasses
import re

VISIBILITY = r"(?:pub(?:\([^)]*\))? )?"
FUNCTION = re.compile(rf'( *){VISIBILITY}(?:const )?(?:unsafe )?(?:extern "C" )?fn (\w+)')
BLOCK = re.compile(rf"( *){VISIBILITY}(?:unsafe )?(impl|trait|mod|macro_rules!)(?=[ <])(.*)")
TYPE = re.compile(rf"(?m)^ *{VISIBILITY}(?:struct|enum|union|trait) (\w+)")


@dataclasses.dataclass(frozen=True)
class Function:
    """A function, its modules below the crate, the header of the impl or trait that it stands in (or ""), and where it
    starts, its body starts and it ends."""

    path: str
    modules: str
    block: str
    name: str
    start: int = dataclasses.field(compare=False)
    body: int = dataclasses.field(compare=False)
    end: int = dataclasses.field(compare=False)


def module_of(path):
    """Returns the modules that a file of src/ stands for."""
    names = path[len("src/") : -len(".rt")].split("/")
    if names[-1] in ("lib", "main", "mod"):
        names.pop()
    return names


def functions(path, text):
    """Yields the functions of a file of src/. What stands in a macro is left out."""
    lines = text.split("\n")
    starts = [0]
    for line in lines:
        starts.append(starts[-1] + len(line) + 1)
    blocks, i = [], 0
    while i < len(lines):
        line = lines[i].rstrip()
        if blocks and line == blocks[-1][0] + "}":
            blocks.pop()
        elif FUNCTION.match(line):
            indent, name = FUNCTION.match(line).groups()
            head = end_of_head(lines, i, indent)
            last, opening = head, lines[head].rstrip()
            body = starts[head] + len(opening)
            if opening.endswith("{"):
                last = next((n for n in range(head + 1, len(lines)) if lines[n].rstrip() == indent + "}"), head)
            elif opening.endswith("}"):
                body = starts[head] + opening.index("{")
            kinds = [kind for _, kind, _ in blocks]
            if "macro_rules!" not in kinds:
                modules = module_of(path) + [head for _, kind, head in blocks if kind == "mod"]
                around = [f"{kind}{head}" for _, kind, head in blocks if kind in ("impl", "trait")]
                end = starts[last] + len(lines[last])
                yield Function(path, "::".join(modules), around[-1] if around else "", name, starts[i], body, end)
            i = last
        elif BLOCK.match(line):
            indent, kind, head = BLOCK.match(line).groups()
            while i < len(lines) - 1 and not lines[i].rstrip().endswith(("{", "}", ";")):
                i += 1
                head += " " + lines[i].strip()
            head = head.rstrip()
            if head.endswith("{"):
                head = head[:-1].rstrip()
                blocks.append((indent, kind, head.strip() if kind == "mod" else head))
        i += 1


def end_of_head(lines, i, indent):
    """Returns the line on which the head of a function ends: with the brace of its body, or with a body of one line, or
    without a body."""
    first = i
    while i < len(lines) - 1:
        line = lines[i].rstrip()
        if re.fullmatch(rf"{indent}\S.*[{{}};]|{indent}\{{", line):
            break
        # A trait's function may end with its clauses.
        if line.endswith(";") and is_closed("".join(lines[first : i + 1])):
            break
        i += 1
    return i


def is_closed(text):
    return all(text.count(opening) == text.count(closing) for opening, closing in ("{}", "()", "[]"))


def function_at(path, text, start, end):
    """Returns the function that the span [start, end) of a file lies in, and whether it lies in the body; or None."""
    if path.startswith("src/"):
        for it in functions(path, text):
            if it.start <= start and end <= it.end:
                return it, start >= it.body
    return None


def split_outside(text, mark):
    """Splits a text at the first mark that stands outside of <>, () and []."""
    depth = 0
    for at, byte in enumerate(text):
        if not depth and text.startswith(mark, at):
            return text[:at], text[at + len(mark) :]
        closes = byte in ")]" or byte == ">" and text[at - 1 : at] != "-"
        depth += (byte in "<([") - closes
    return text, ""


def type_names(text):
    """Returns the last name of a type's path, and the names in its arguments."""
    head, _, arguments = re.sub(r"'\w+|\b(?:mut|dyn)\b|&", "", text).partition("<")
    words = re.findall(r"\w+", head)
    return words[-1] if words else "", re.findall(r"\w+", arguments)


def block_names(block):
    """Returns the type of an impl (or the trait), the names that the prover may give it, the likeliest first, and what
    these names have in common."""
    if block.startswith("trait"):
        name = re.findall(r"\w+", block)[1]
        return name, [name], name
    rest, parameters = block[len("impl") :].strip(), []
    if rest.startswith("<"):
        closings = (n for n in range(1, len(rest) + 1) if rest[:n].count("<") == rest[:n].replace("->", "").count(">"))
        end = next(closings)
        parameters = re.findall(r"(?:^<|, *)(\w+)", re.sub(r"'\w+", "", rest[:end]))
        rest = rest[end:].strip()
    trait, target = split_outside(split_outside(rest, " where ")[0], " for ")
    kind, arguments = type_names(target or trait)
    # The prover calls a reference to a parameter `Ref`.
    if target.startswith("&") and kind in parameters:
        kind = "Ref"
    arguments = [it for it in arguments if it not in parameters]
    base = first = kind
    if target:
        trait_name, trait_arguments = type_names(trait)
        base = kind + trait_name
        first = base + "".join(trait_arguments[:1])
    longer = [f"{it}+{'+'.join(arguments)}" for it in (first, base)] if arguments else []
    return kind, [*dict.fromkeys([*longer, first, base])], base
