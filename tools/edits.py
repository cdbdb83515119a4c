"""The wrong answers of crates/*/must-fail/*.edit.

Each has a head of its own, in lines that rt passes over: `# label:` its name, `# refused:` the function or the file in
whose proof a fact has to fail, and the fact, `# tries:` the public function whose promise it breaks, where that is
another, and after `#` alone what is wrong. Its replacements are the lines `file:`, `old:` and `new:` after them.
"""
HEAD = {"label", "refused", "tries"}


def answers(path):
    """The wrong answers of a file, each as its head's lines and its replacements: file, old and new text."""
    found, file, old = [], None, None
    with open(path, encoding="utf8") as f:
        lines = f.read().splitlines()
    for line in lines:
        word, _, rest = line.removeprefix("# ").partition(": ")
        if line.startswith("# ") and word == "label" or not found:
            found.append({"label": "", "at": "", "fact": "", "tries": "", "wrong": "", "edits": []})
        if line.startswith("# ") and word == "refused":
            found[-1]["at"], _, found[-1]["fact"] = rest.partition(" ")
        elif line.startswith("# ") and word in HEAD:
            found[-1][word] = rest
        elif line.startswith("# "):
            found[-1]["wrong"] = line[2:]
        elif word == "file":
            file = rest
        elif word == "old":
            old = rest
        elif word == "new" or line == "new:":
            found[-1]["edits"].append((file, old, rest))
    return found
