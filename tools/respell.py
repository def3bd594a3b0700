#!/usr/bin/env python3
"""Brings the repository's own definitions and lemmas to snake case, as the library has them.

usage: python3 tools/respell.py [FOLDER]

Run once, after the library's own port script. A name in lower camel case becomes snake case, part by part between
dashes; a name that would then be the name of a function of src/, or of another definition or lemma, is named by the
table APART. Comments are turned too; code is not: its names are in snake case already, and paths with '::' are types'.
"""

import os
import re
import sys

# Names that would fall together with another name.
APART = {
    "anyMarked": "is_any_marked", "arcsOf": "arc_words", "arcsStart": "arcs_offset", "arcsOffset": "arcs_offset_in",
    "argumentCount": "argument_count_of", "argumentInside": "is_argument_inside", "argumentsAt": "arguments_from",
    "bindingRight": "is_binding_right", "branchCount": "branch_count_of", "branchInside": "is_branch_inside",
    "branchKindRight": "is_branch_kind_right", "branchScoped": "is_branch_scoped", "branchThread": "branch_thread_of",
    "callNamed": "named_call", "callRight": "is_call_right", "callStep": "step_call", "callZero": "is_call_zero",
    "callsItself": "is_self_calling", "callsRight": "are_calls_right", "canMeet": "can_communicate",
    "childrenAbove": "are_children_above", "communicationNamed": "named_communication",
    "copiedFirst": "copied_first_of", "copiedFormal": "copied_formal_of", "copiedSecond": "copied_second_of",
    "copiedUse": "copied_use_of", "copyArgument": "copy_argument_of", "copyBranch": "copy_branch_of",
    "copyDefinition": "copy_definition_of", "copyName": "copy_name_of", "copyNamed": "named_copy",
    "copyNode": "copy_node_of", "countsRight": "are_counts_right", "definitionInside": "is_definition_inside",
    "definitionWord": "definition_word_of", "definitionsAt": "definitions_offset", "endsAt": "is_end_at",
    "entryInside": "is_entry_inside", "entryPlace": "place_of_entry", "entryRight": "is_entry_right",
    "firstValue": "first_value_of", "formalsInside": "are_formals_inside", "formalsZero": "are_formals_zero",
    "freeNames": "free_names_word", "freeStart": "free_start_of", "hasPrivates": "has_private_values",
    "headerRight": "is_header_right", "heldBy": "held_names_by", "initialRows": "initial_row_places",
    "initialSpots": "initial_spot_places", "isAccepted": "is_answer_accepted", "isAfresh": "is_worked_afresh",
    "isBound": "is_bound_name", "isCall": "is_call_node", "isIn": "is_in_set", "isMarked": "is_place_marked",
    "isOpen": "is_step_open", "isRead": "is_name_read", "isSource": "is_source_name", "isStop": "is_stop_node",
    "justOne": "is_just_one", "kindsRight": "are_kinds_right", "layoutRight": "is_layout_right",
    "lengthGiven": "given_length", "lengthsRight": "are_lengths_right", "nameDefinition": "name_definition_of",
    "nameKind": "name_kind_of", "nameKindRight": "is_name_kind_right", "nameRight": "is_name_right",
    "nameShown": "shown_name", "nameThread": "thread_of_name", "newNamed": "named_new", "nextSeen": "next_seen_of",
    "nodeInside": "is_node_inside", "nodeKindRight": "is_node_kind_right", "nodeRight": "is_node_right",
    "nodeScoped": "is_node_scoped", "nodeShown": "shown_node_of", "shownNode": "shown_node", "nodesAt": "nodes_offset",
    "numbersOf": "numbers_for", "ofBuild": "from_build", "ofLook": "from_look", "ofNode": "from_node_descriptions",
    "ofNodes": "from_nodes", "ofRun": "from_run", "ofSends": "from_sends", "ofSize": "from_size",
    "oneSpot": "has_one_spot", "oneValue": "is_one_value", "openSteps": "open_step_list",
    "opposedFor": "is_opposed_for", "originalBranch": "branch_origin", "originalName": "name_origin",
    "originalNode": "node_origin", "ownedOnce": "is_owned_once", "passedOn": "passed_places",
    "placeAt": "place_found_at", "placeCount": "place_count_of", "privateValues": "private_value_list",
    "privatesOf": "privates_word", "publicWord": "public_set_word", "publicsOf": "public_list_of",
    "putOne": "put_one_transition", "rangesRight": "are_ranges_right", "reachOf": "reach_for", "readBack": "reading_back",
    "readNames": "read_names_word", "recordStart": "record_offset", "recordsRight": "are_records_right",
    "releaseNamed": "named_release", "restrictedRight": "is_restricted_right",
    "restrictedWord": "restricted_set_word", "rowPlaces": "row_places_of", "rowStart": "row_start_of",
    "runLowest": "run_of_lowest", "samePlace": "is_same_place", "scopeRight": "is_scope_right", "setOf": "set_from",
    "shapeRight": "is_shape_right", "silentNamed": "named_silent", "spanCount": "span_count_of",
    "spanFirst": "span_first_of", "spotsOf": "spot_list", "standsAt": "is_standing_at", "startFrom": "start_after",
    "stepIn": "step_of_meaning", "stepUp": "step_to_owner", "takeAll": "take_steps", "takeAll-append": "take_steps-append",
    "valueIn": "value_found_in", "valueSet": "value_set_word", "wellFormed": "is_well_formed",
    "withAll": "with_all_of", "withBit": "with_bit_set", "withAll-listed": "with_all-listed",
}
TOKEN = re.compile(r"[^\s(){}\[\].;,\"`λ@«»…]+")
CAMEL = re.compile(r"[a-z][^\s]*[a-z0-9][A-Z]")
KEEP = {"getD": "get_or"}


def snake(part):
    if part in KEEP:
        return KEEP[part]
    if not re.match(r"[a-z]", part):
        return part
    return re.sub(r"([a-z0-9])([A-Z])", lambda m: m.group(1) + "_" + m.group(2).lower(), part)


def turned(token):
    """The name today, or the token itself where it is no name of ours."""
    if "::" in token or "/" in token or not CAMEL.match(token):
        return token
    if token in APART:
        return APART[token]
    return "-".join(APART.get(p, snake(p)) if p in APART and token == p else snake(p) for p in token.split("-"))


def turn(text):
    return TOKEN.sub(lambda m: turned(m.group(0)), text)


def turn_page(text, names):
    """A page, in which names of ours stand between backquotes."""
    def span(m):
        return TOKEN.sub(lambda t: turned(t.group(0)) if turned(t.group(0)) in names else t.group(0), m.group(0))
    return re.sub(r"`[^`\n]+`", span, text)


def main():
    root = sys.argv[1] if len(sys.argv) > 1 else "."
    names = set()
    for folder, dirs, files in os.walk(os.path.join(root, "crates")):
        dirs[:] = sorted(d for d in dirs if d != "out")
        for name in sorted(files):
            if name.endswith((".antt", ".rt")):
                path = os.path.join(folder, name)
                with open(path, encoding="utf-8") as f:
                    old = f.read()
                new = turn(old)
                names.update(TOKEN.findall(new))
                if new != old:
                    with open(path, "w", encoding="utf-8") as f:
                        f.write(new)
    for folder, dirs, files in os.walk(root):
        dirs[:] = sorted(d for d in dirs if d not in (".git", "crates", "prepared", "target", "out"))
        for name in sorted(files):
            if name.endswith(".md"):
                path = os.path.join(folder, name)
                with open(path, encoding="utf-8") as f:
                    old = f.read()
                new = turn_page(old, names)
                if new != old:
                    with open(path, "w", encoding="utf-8") as f:
                        f.write(new)


if __name__ == "__main__":
    main()
