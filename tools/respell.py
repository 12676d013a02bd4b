#!/usr/bin/env python3
"""Respells this repository's own names as today's Rattle writes them: run once, at the top, right after the kit's port.py.

  tools/respell.py        lists what would be respelled, and which names would fall together
  tools/respell.py do     renames the crates and writes the files

Two crates get other names, since libraries of the kit have theirs: in crates.txt, in the folders, in paths and in calls.
The definitions and lemmas in lower camel case become snake case, in every .antt, .rt and .edit file. A part of a name that begins
with a capital names a type, a variant or a constant and stays. The fields and cases of what specs/ defines become snake case too; in the name of
a law a dash joins the parts, as the head of crates/whole/specs/Lib.antt says, also where port.py has put an underscore for it.
Functions, exported names, strings, inputs and outputs are not touched. A second run changes nothing.
"""
import collections
import os
import re
import subprocess
import sys

CRATES = {"hex": "hexframe", "log": "movelog"}

# A law whose name a definition takes: it gets another one.
TAKEN = {"held_move": "move_held-held_move"}

# The laws whose dash port.py turns to an underscore, since the library has a word of that spelling.
LAWS = """
    abs_neg add_parts add_times after_none after_on ahead_in ahead_past alike_next all_three and_assoc and_l and_r answers_one at_a at_both at_first
    at_last at_mem at_most_one at_place at_zero below_suc both_yes by_first by_value byte_of carried_none carried_some cast_fits cond_ind cond_map
    digit_low digits_append dot_up drop_min edge_moved edges_placed else_same ends_found entry_read ev_zero every_true filled_none from_end from_first
    from_lowest from_member from_start full_is hands_out held_kept high_fits high_is in_all inner_below is_false is_true kept_append kept_next
    known_at known_next known_on last_fits le_parts leading_end leading_step line_before line_first line_kept line_refused low_first low_step
    made_again made_held made_kept made_move map_at mem_append_left mem_append_right moved_length moves_more named_by next_last no_bytes no_longer
    no_lower no_text none_kept none_yet not_after not_covered not_last not_left number_read of_parts one_value out_line over_first parts_within
    read_known read_more read_none read_number rest_out round_trip run_by same_ends same_false same_length same_place same_point same_refl same_step
    same_test same_true same_turn second_back second_empty seen_alike short_none side_before sides_apart signed_high signed_low so_far stays_within
    store_byte sub_parts sub_self table_at take_none take_step turn_end turned_apart turns_next two_at two_bytes two_good two_made up_at up_none
    value_after value_before value_same within_step word_fits write_known written_read zero_bits zero_ended zero_held
"""

# The ends of two intervals, as specs/Ends of whole calls them.
ENDS = ("lowA", "highA", "lowB", "highB")

# A law of these crates, and a definition of movelog.
IN_ORDER = ("crates/plane/", "crates/outline/")

LETTER = r"[\w'₀-₉-]"
WORD = re.compile(r"[A-Za-z_]" + LETTER + "*")
DEFINED = [
    re.compile(r"^\s*(?:(?:abbrev|pub|unfoldable|ruleset) )*([a-z]" + LETTER + r"*)(?: \{[^}]*\})? (?::|=) ", re.M),
    re.compile(r"^(?:(?:abbrev|pub|unfoldable) )*([a-z]" + LETTER + r"*) \{", re.M),
]
MEMBER = re.compile(r"^  (?:pub )?([a-z]" + LETTER + r"*)(?: \{[^}]*\})? : ", re.M)


def files():
    for top in ("crates", "tests/further-edits"):
        for folder, folders, names in os.walk(top):
            folders[:] = sorted(d for d in folders if d != "out")
            for name in sorted(names):
                if name.endswith((".rt", ".antt", ".edit")):
                    yield os.path.join(folder, name)


def read(path):
    with open(path) as f:
        return f.read()


def write(path, text):
    with open(path, "w") as f:
        f.write(text)


def snake(part):
    if re.match("[A-Z]", part) or not re.search("[a-z0-9][A-Z]", part):
        return part
    return re.sub("(?<=[a-z0-9])([A-Z])", r"_\1", part).lower()


def respelled(word):
    return "-".join(snake(part) for part in word.split("-"))


def words():
    """The definitions and lemmas that stand, and all words, each with its files."""
    defined, used = collections.defaultdict(set), collections.defaultdict(set)
    for path in files():
        text = read(path)
        for word in WORD.findall(text):
            used[word].add(path)
        if path.endswith(".antt"):
            for pattern in DEFINED:
                for match in pattern.finditer(text):
                    defined[match.group(1)].add(path)
    return defined, used


def renaming(defined, used):
    new = {word: respelled(word) for word in defined if respelled(word) != word}
    # an edit, and a comment of specs/, may still have a word that port.py has respelled where it is defined
    for word, paths in used.items():
        if any(path.endswith(".edit") or "/specs/" in path for path in paths) and respelled(word) != word and respelled(word) in defined:
            new[word] = respelled(word)
    new.update((law, name) for law, name in TAKEN.items() if law in new.values())
    return new


def evening():
    """The fields and cases of specs/, the laws and the ends that are not spelled as their like."""
    members = {member for path in files() if "/specs/" in path for member in MEMBER.findall(read(path))}
    new = {member: member.replace("-", "_") for member in members if "-" in member}
    new.update((law, law.replace("_", "-")) for law in LAWS.split())
    new["le_z_yes"] = "le_z-yes"
    new.update((end, respelled(end)) for end in ENDS)
    return new


def rename_crates():
    text = read("crates.txt")
    for old, new in CRATES.items():
        text = re.sub(rf"\b{old}\b", new, text)
        for folder in ("crates/", "tests/further-edits/"):
            if os.path.isdir(folder + old):
                subprocess.check_call(["git", "mv", folder + old, folder + new])
    write("crates.txt", text)
    for path in files():
        text = turned = read(path)
        for old, new in CRATES.items():
            turned = turned.replace(f"Rattle.{old}.", f"Rattle.{new}.").replace(f"`{old}::", f"`{new}::")
            if not path.endswith(".antt"):
                turned = re.sub(rf"(?<![\w:]){old}::", f"{new}::", turned)
        if turned != text:
            write(path, turned)


def respell(new, below=""):
    if not new:
        return 0
    longest_first = sorted(map(re.escape, new), key=len, reverse=True)
    pattern = re.compile(rf"(?<!{LETTER})({'|'.join(longest_first)})(?!{LETTER})")
    count = 0
    for path in files():
        if not path.startswith(below):
            continue
        text = read(path)
        turned = pattern.sub(lambda match: new[match.group(1)], text)
        if turned != text:
            count += 1
            write(path, turned)
    return count


def main():
    if sys.argv[1:] not in ([], ["do"]):
        sys.exit("usage: tools/respell.py [do]")
    defined, used = words()
    new = renaming(defined, used)
    if not sys.argv[1:]:
        print(len(new), "words:", " ".join(f"{o}→{n}" for o, n in sorted(new.items())))
        print("together with another definition:", [(o, n, sorted(defined[n])) for o, n in new.items() if n in defined and o in defined and o not in TAKEN])
        print("two that become one:", [n for n, k in collections.Counter(new[o] for o in new if o in defined).items() if k > 1])
        print("also a name in code:", sorted(n for o, n in new.items() if n in used and n not in defined))
        return
    rename_crates()
    print(respell(new) + respell(evening()) + respell({"in_order": "in-order"}, IN_ORDER), "files respelled")


main()
