"""What a file of crates/ says: its text without comments, so that nothing counts that is commented out."""
import re

# What begins a comment, and the texts in quotes, in which nothing does. A name of antt may have two strokes inside it.
# A block of either language may stand in another.
BEGINS = {
    ".antt": re.compile(r'"(?:\\.|[^"\\])*"|(?<![^\s(){},"])--.*|\{-'),
    ".rt": re.compile(r"""'(?:\\.[^']*|[^'\\])'|"(?:\\.|[^"\\])*"|//.*|/\*"""),
}
EDGES = {"{-": re.compile(r"\{-|-\}"), "/*": re.compile(r"/\*|\*/")}


def block_end(text, start, opening):
    """Where the block ends that begins there; one that is never closed ends with the text."""
    depth = 0
    for edge in EDGES[opening].finditer(text, start):
        depth += 1 if edge.group() == opening else -1
        if not depth:
            return edge.end()
    return len(text)


def bare(text, kind):
    """A text of that kind with blanks for comments, so that all else keeps its place, and with none at a line's end."""
    kept, at = "", 0
    while found := BEGINS[kind].search(text, at):
        start, opening = found.start(), found.group()
        end = block_end(text, start, opening) if opening in EDGES else found.end()
        comment = not opening.startswith(('"', "'"))
        kept += text[at:start] + (re.sub(r"[^\n]", " ", text[start:end]) if comment else text[start:end])
        at = end
    return re.sub(r"(?m)[ \t]+$", "", kept + text[at:])


def said(file):
    """What a file of Rattle or antt says; nothing where there is no such file."""
    return bare(file.read_text(), file.suffix) if file.exists() else ""


def brought(text, module):
    """The names that a text of Rattle or antt brings from a module, and does not change."""
    lists = re.findall(r"(?m)^(?:ghost )?use %s\.\{([^}]*)\}" % re.escape(module), text)
    return {name for names in lists for name in re.split(r",\s*", names.strip())}
