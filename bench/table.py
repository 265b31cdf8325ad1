"""Tables in Markdown."""


def show(titles, rows):
    """Prints a table, each row as soon as it is there."""
    print("| " + " | ".join(titles) + " |")
    print("|" + "---|" * len(titles))
    for row in rows:
        print("| " + " | ".join(str(cell) for cell in row) + " |", flush=True)
    print(flush=True)
