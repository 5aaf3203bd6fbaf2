#!/usr/bin/env python3
"""Brings names of definitions, lemmas and variables to snake case: tools/respell.py, at the top of the repository.

It is the second half of the port to the present Rattle, after the kit's own script, and was run once.
Words are in snake case there, and types and modules in camel case. A name that begins with a small letter and has
a capital later is respelled, in proof files, in clauses, in must-fail edits and in docs/. Functions of src/,
exported names and what stands between quotes keep their names.

A respelled name that would fall together with a function of src/, a field, or another name gets `_of` after it.
"""
import os
import re
import sys

# Respelled names that a function, a field or a variable has already.
TAKEN = set("""
add_row after_message after_piece available_memory bytes_to can_send cell_ids decoded_ack decoded_slice decoded_small
form_len goes_on hand_over handed_out held_by id_len in_cell in_lane in_ranges is_open kept_by kept_of lane_for lane_ids
lane_len lanes_len last_len last_sent lent_after line_to lower_spot lowest_free lowest_id message_answer message_at
oldest_unacknowledged packets_of part_kind piece_kind piece_len put_block put_slice put_small range_len ranges_in
ranges_named read_back read_into rr_received ru_received slice_answer slice_len small_at small_by small_bytes small_len
sr_acked sr_queued starts_at stores_hold su_queued taken_apart too_large type_byte value_of window_of with_lane
with_message
""".split())

# Words of the library that the kit's script respells where they stand alone.
KNOWN = {"getD": "get_or"}

SEGMENT = re.compile(r"(?<![\w'«])[a-zα-ωκ]\w*?[a-z0-9][A-Z]\w*")
QUOTED = re.compile(r'b?"(?:\\.|[^"\\])*"')


def segment(m):
    w = m.group(0)
    if w in KNOWN:
        return KNOWN[w]
    if re.search(r"[A-Z]{2}", w):
        return w
    s = re.sub(r"(?<=[a-z0-9])([A-Z])", lambda k: "_" + k.group(1), w).lower()
    return s + "_of" if s in TAKEN else s


def respelled(text):
    # what stands between quotes stays
    out, at = [], 0
    for q in QUOTED.finditer(text):
        out += [SEGMENT.sub(segment, text[at:q.start()]), q.group(0)]
        at = q.end()
    return "".join(out + [SEGMENT.sub(segment, text[at:])])


def main():
    n = 0
    for top in ("crates", "docs"):
        for folder, dirs, files in os.walk(top):
            dirs[:] = sorted(d for d in dirs if d not in ("out", "data"))
            for f in sorted(files):
                if not f.endswith((".rt", ".antt", ".edit", ".md")):
                    continue
                path = os.path.join(folder, f)
                with open(path, encoding="utf-8") as it:
                    text = it.read()
                new = respelled(text)
                if new != text:
                    with open(path, "w", encoding="utf-8") as it:
                        it.write(new)
                    n += 1
    print(f"respell: {n} files")
    return 0


if __name__ == "__main__":
    sys.exit(main())
