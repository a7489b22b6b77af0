"""What a page shows: a fenced block that is named after a file is that file; one named `console`,
and an indented block that begins with `$`, has commands, each with its output."""

import re


BLOCK = re.compile(r"^```(\S+)\n(.*?)^```$|((?:^    [^\n]*\n)+)", re.M | re.S)


def blocks_of(text):
    """The blocks of a page, each with its name; an indented one is named `console` where it begins
    with `$`."""
    for name, fenced, indented in BLOCK.findall(text):
        if fenced:
            yield name, fenced
        elif indented.startswith("    $ "):
            yield "console", re.sub(r"^    ", "", indented, flags=re.M)


def commands_of(block):
    """The commands of a block, each with the output that it shows. A line of a command that ends
    with a backslash goes on in the next."""
    for part in re.split(r"^\$ ", block, flags=re.M)[1:]:
        command = re.match(r"(?:.*\\\n)*.*", part)[0]
        yield command, part[len(command) + 1 :]
