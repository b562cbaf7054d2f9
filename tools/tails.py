"""What viewers write after the output of a script, or between its blocks, and whether it is lawful by the rules of
docs/LANGUAGE.md alone."""

import re


def fault_of(tail, viewers, shots, editions):
    """What is wrong with the text of so many viewers, each of which was asked `shots` times and once more at the end; None
    where nothing is. `editions` has the lines of the report on each edition by its number, up to the last one that was
    published: a viewer's editions never fall, it ends with the last, and each block is the report on its edition."""
    lines, place, last = tail.split("\n"), 0, max(editions)
    if lines.pop() != "":
        return "no newline at the end"
    for viewer in range(1, viewers + 1):
        least = 0
        for _ in range(shots + 1):
            head = lines[place].split(" ") if place < len(lines) else []
            if head[:3] != ["viewer", str(viewer), "edition"] or not head[3].isdigit() or int(head[3]) < least:
                return f"{' '.join(head) or 'nothing'!r} behind edition {least} of viewer {viewer}"
            least = int(head[3])
            block = editions.get(least)
            if block is None or lines[place + 1 : place + 1 + len(block)] != block:
                return f"the block of viewer {viewer} on edition {least} is another"
            place += 1 + len(block)
        if least != last:
            return f"viewer {viewer} ends with edition {least}, and not {last}"
    return "more lines" if place < len(lines) else None


def fault_together(text, output, viewers, shots, editions, between=False):
    """What is wrong with the text of a script with this output and so many viewers, whose blocks come as they are made; None
    where nothing is. Without them it is the output. Each viewer's blocks, one after another, are a lawful tail, and none stands
    before a report of the script that is on an earlier edition than it. Where it is asked for, one stands before the last line of the
    output. The output has no line like a viewer's heading."""
    lines, own, greatest, written = text.split("\n"), [[] for _ in range(viewers)], 0, []
    first = None
    place = 0
    while place < len(lines):
        head = re.fullmatch(r"viewer (\d+) edition (\d+)", lines[place])
        if head:
            viewer, edition = map(int, head.groups())
            if not 1 <= viewer <= viewers or edition not in editions:
                return f"{lines[place]!r}"
            end = place + 1 + len(editions[edition])
            own[viewer - 1] += lines[place:end]
            first = len(written) if first is None else first
            greatest, place = max(greatest, edition), end
            continue
        told = re.fullmatch(r"line \d+ edition (\d+)", lines[place])
        if told and int(told[1]) < greatest:
            return f"a block of a viewer on edition {greatest} before {lines[place]!r}"
        written.append(lines[place])
        place += 1
    if "\n".join(written) != output:
        return "another output"
    if between and (first is None or first > len(output.split("\n")) - 2):
        return "no block of a viewer before the last line of the output"
    tail = "".join(f"{line}\n" for lines in own for line in lines)
    return fault_of(tail, viewers, shots, editions)
