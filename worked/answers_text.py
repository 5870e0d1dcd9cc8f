"""Names as they are printed."""


def unquoted(n):
    return n[1:-1].replace('""', '"') if n.startswith('"') else n
