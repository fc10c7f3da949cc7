"""A second folding of chains of shuffles, written from document 02, order 13, in another language: the chain shuffles the bytes 0 to 31, and what comes out is the
list. Reads a chain as the program `fold` does, from the bytes given, and answers what it has to write; None for bad usage."""


def fold(data):
    links = [data[at : at + 17] for at in range(0, len(data), 17)]
    if len(links) > 16:
        return b"refused 18\n"
    if len(data) % 17:
        return None
    if any(index > 31 for link in links for index in link[1:]):
        return b"refused 5\n"
    a, b = bytes(range(16)), bytes(range(16, 32))
    current = a
    for link in links:
        partner = {0: a, 1: b}.get(link[0], current)
        current = bytes((current + partner)[index] for index in link[1:])
    return b"indices %s\nrefused 0\n" % current.hex().encode()
