"""What `covd check` refuses of a design text is left out of it, piece by piece, until the rest is taken."""

import re
import subprocess
import tempfile

from .notes import SourceError

MOST_TRIES = 200


def refusal(program, text):
    """The kind and the byte of the first fault of a design text, or nothing where it has none."""
    with tempfile.NamedTemporaryFile("w", suffix=".sv", encoding="utf-8") as file:
        file.write(text)
        file.flush()
        try:
            done = subprocess.run([program, "check", file.name], capture_output=True, text=True, check=False)
        except OSError as error:
            raise SourceError(program, error.strerror or "can't be run") from error
    if done.returncode == 0:
        return None
    found = re.match(r"design refused (\w+) at (\d+)", done.stdout)
    if not found:
        raise SourceError(program, f"status {done.returncode}: {done.stdout.strip() or done.stderr.strip()}")
    return found[1], int(found[2])


def settle(book, program, notes):
    """Leaves out what the program refuses."""
    for _ in range(MOST_TRIES):
        text = book.text()
        found = refusal(program, text)
        if found is None:
            return
        kind, at = found
        line = text.encode()[:at].count(b"\n")
        leave_out(book, line, kind, notes)
    raise SourceError(program, f"refuses the design text after {MOST_TRIES} pieces were left out")


def leave_out(book, line, kind, notes):
    """Leaves out what stands in a line: bins, a point, a cross or an option, an instance, or a whole group."""
    for group, instance, place in book.where(line):  # (one or none)
        token = group.declared.token
        if instance is not None:
            notes.left_out(token, f"the instance {instance.name} of {group.name}, which covd refuses: {kind}")
            book.instances.remove(instance)
        elif not 1 <= place <= len(group.members):
            notes.left_out(token, f"the covergroup {group.name}, which covd refuses: {kind}")
            book.groups.remove(group)
            book.instances[:] = [it for it in book.instances if it.group is not group]
        else:
            first, end = piece(group.members, place - 1)
            what = group.members[first].strip().removesuffix(" {")
            notes.left_out(token, f"{what} of {group.name}, which covd refuses: {kind}")
            del group.members[first:end]
        return
    raise SourceError(f"line {line + 1} of the design text", f"covd refuses a declaration: {kind}")


def piece(members, at):
    """The lines of what stands at a line: of bins it alone, where their point keeps others; else the whole member."""
    first = at
    while first > 0 and (members[first].startswith("  ") or members[first] == "}"):
        first -= 1
    end = first + 1
    if members[first].endswith(" {"):
        while members[end - 1] != "}":
            end += 1
    others = [it for it in members[first + 1 : end - 1] if re.match(r"  (wildcard )?bins ", it) and it is not members[at]]
    is_inner = first < at < end - 1
    is_bins = is_inner and re.match(r"  (wildcard )?bins ", members[at])
    return (at, at + 1) if is_inner and (others or not is_bins) else (first, end)
