"""Reads vector files: a case a line, `numbers : the image`; a line that begins with '#' names the case below it."""


def lines(path):
    """The numbers before the colon and the text after it, of each case."""
    for line in open(path):
        if line.strip() and not line.startswith("#"):
            head, image = line.split(":")
            yield [int(n) for n in head.split()], image.strip()


def vectors(path):
    """The same, with the image's words."""
    for numbers, image in lines(path):
        yield numbers, [int(w) for w in image.split()]
