#!/usr/bin/env python3
"""Renames crates and merges them, over all files of a checkout.

    rename_crates.py [TOP]

Reads the table below. Run it once over a tree with the old names: a crate's new name may be another crate's old one. It is kept for crates that
were written with the old names and are not in the tree yet."""

import os
import re
import shutil
import sys

# For each new crate the old ones, the one whose root file stays first.
CRATES = {
    'grammar': ['grammar', 'cutting'],
    'cif_parse_expr': ['cif_expr'],
    'cif_parse_decl': ['cif_decl'],
    'cif_source': ['cif_source', 'cif_rules'],
    'cif_scope_uses': ['cif_uses'],
    'cif_resolve_cycles': ['cif_cycles'],
    'cif_types_kinds': ['cif_kinds'],
    'cif_types_table': ['cif_typing'],
    'cif_types_constancy': ['cif_constancy'],
    'cif_types_arguments': ['cif_arguments'],
    'cif_types_equations': ['cif_equations'],
    'cif_types_targets': ['cif_targets'],
    'cif_net_expr': ['cif_term'],
    'cif_net_model': ['cif_model', 'cif_nesting', 'cif_safe'],
    'cif_net': ['cif_net', 'cif_defined'],
    'cif_net_laws': ['cif_plain', 'cif_choices'],
    'cif_inst_model': ['cif_image'],
    'cif_inst_bodies': ['cif_written'],
    'cif_inst_laws': ['cif_nets', 'cif_fits', 'cif_small', 'cif_shallow'],
    'cif_inst_components': ['cif_components'],
    'cif_inst_numbers': ['cif_numbers'],
    'cif_inst_parameters': ['cif_parameters'],
    'cif_inst_constants': ['cif_constants'],
    'cif_inst_names': ['cif_translate'],
    'cif_inst_types': ['cif_values'],
    'cif_inst_sizes': ['cif_weights'],
    'cif_inst_paths': ['cif_rows'],
    'cif_inst_predicates': ['cif_predicates'],
    'cif_alg_measure': ['cif_measure'],
    'cif_alg_order': ['cif_algebraic'],
    'cif_alg_unfold': ['cif_unfold'],
    'cif_value': ['cif_eval'],
    'cif_eval': ['cif_fire'],
    'cif_sim_model': ['sim_face'],
    'cif_sim_names': ['sim_shown'],
    'cif_why_model': ['why_face'],
    'cif_why': ['cif_reasons'],
    'cif_why_command': ['cif_why'],
    'cif_batch_command': ['cif_batches'],
    'st_read': ['st_read', 'st_lex'],
    'st_check': ['st_check', 'st_place'],
    'plc_model': ['plc_face'],
    'plc_expr_walk': ['plc_walk'],
    'plc_frame': ['plc_gen'],
    'plc_event_model': ['plc_act', 'plc_parts'],
    'plc_gen_laws': ['plc_tries', 'plc_sound', 'plc_fits'],
    'plc_gen': ['plc_code'],
}

# Modules that get another name, since two crates that are merged have one of that name in any case, by old crate, folder and name.
MODULES = {
    ('cutting', 'src', 'runs'): 'splitting',
    ('cif_rules', 'proofs', 'Places'): 'RulePlaces',
    ('cif_rules', 'proofs', 'Refused'): 'RefusedRules',
    ('cif_safe', 'src', 'laws'): 'safety',
    ('cif_plain', 'src', 'laws'): 'unfolding',
    ('cif_choices', 'src', 'laws'): 'choosing',
    ('cif_choices', 'proofs', 'Standing'): 'StandingChoices',
    ('cif_choices', 'proofs', 'Ranging'): 'RangingChoices',
    ('cif_nets', 'src', 'laws'): 'nets',
    ('cif_fits', 'src', 'laws'): 'fitting',
    ('cif_small', 'src', 'laws'): 'small',
    ('cif_shallow', 'src', 'laws'): 'nesting',
    ('cif_small', 'proofs', 'BodyLaws'): 'SmallBodies',
    ('cif_shallow', 'proofs', 'BodyLaws'): 'NestedBodies',
    ('st_place', 'proofs', 'Listed'): 'ListedPlaces',
    ('plc_parts', 'src', 'laws'): 'defining',
    ('plc_parts', 'specs', 'Parts'): 'ProgramParts',
    ('plc_tries', 'src', 'laws'): 'trying',
    ('plc_sound', 'src', 'laws'): 'soundness',
    ('plc_fits', 'src', 'laws'): 'framing',
    ('plc_tries', 'proofs', 'Own'): 'OwnTries',
    ('plc_sound', 'proofs', 'Own'): 'OwnNames',
}
# Words of code that get another name, wherever they stand.
IDENTIFIERS = {
    'data_program': 'net_program',
    'data_parts': 'net_parts',
    'data_part': 'event_part',
    'data_part_of': 'event_part_of',
    'data_naming': 'net_naming',
    'data_faces': 'net_faces',
    'data_written': 'choice_written',
    'data_first': 'event_first',
    'IsData': 'IsGuardedChoice',
    'events_with_data_are_tried': 'events_are_tried',
    'parts_with_data_are_tried': 'event_parts_are_tried',
    'data_parts_are_tried': 'net_parts_are_tried',
    'data_programs_are_checked': 'net_programs_are_checked',
    'data_programs_have_a_spelling': 'net_programs_have_a_spelling',
    'data_parts_fit': 'net_parts_are_framed',
    'programs_with_data_make': 'net_programs_make',
}
# Crates whose name is also an English word, or a module's: replaced in paths alone.
WORDS = {'cutting'}
# A function at the root of a crate that is merged, and the module that it goes to.
AT_ROOT = {'st_lex': ('token_lists', ['one_token_list'])}

NEW = {old: new for new, olds in CRATES.items() for old in olds}
MERGED = {old for olds in CRATES.values() for old in olds[1:]}
OLD = sorted(NEW, key=len, reverse=True)
NAME = '|'.join(OLD)
TOKEN = re.compile(
    r'\bRattle\.[a-z_0-9]+(?:\.[A-Za-z_+][^\s.{}()\[\],;]*)*'
    rf'|(?<![\w:])(?:crate|{NAME})(?:::[A-Za-z_0-9]+)+'
    rf'|(?<![\w:])(?:{NAME})(?=::)'
    rf'|(?<!\w)(?:{NAME})(?!\w)')
IDENTIFIER = re.compile(r'(?<!\w)(?:' + '|'.join(IDENTIFIERS) + r')(?!\w)')
WITH_DATA = re.compile(r'\b(nets?|events?|choices?) with data\b')


def module(crate, part, name):
    return MODULES.get((crate, part, name), name)


def renamed_path(crate, path):
    """The path below a crate, with the names of modules replaced."""
    path = list(path)
    if len(path) > 2 and path[0] == 'specs' and path[1] in ('declared', 'contracts'):
        path[2] = module(crate, 'src', path[2])
    elif len(path) > 1 and path[0] in ('specs', 'proofs'):
        path[1] = module(crate, path[0], path[1])
        if path[0] == 'proofs':
            path[1] = module(crate, 'src', path[1])
            if crate in AT_ROOT and path[1] in AT_ROOT[crate][1]:
                path[1:1] = [AT_ROOT[crate][0]]
    return path


def has_module(top, crate, name):
    return os.path.isfile(f'{top}/crates/{crate}/src/{name}.rt')


def renamed(text, context, is_word_free):
    """The text of a file of the crate `context`, or of none."""
    inside = NEW.get(context, context)

    def replace(match):
        word = match[0]
        if word.startswith('Rattle.'):
            _, crate, *path = word.split('.')
            return '.'.join(['Rattle', NEW.get(crate, crate), *renamed_path(crate, path)])
        crate, *path = word.split('::')
        if crate == 'crate':
            if path[0] not in ('specs', 'proofs'):
                path[0] = module(context, 'src', path[0])
            return '::'.join(['crate', *renamed_path(context, path)])
        is_path = path or match.string[match.end():match.end() + 2] == '::'
        if crate in WORDS and not (is_path and is_word_free):
            return word
        new = NEW[crate]
        if is_path and new == inside:
            new = 'crate'
        return '::'.join([new, *renamed_path(crate, path)])

    text = IDENTIFIER.sub(lambda it: IDENTIFIERS[it[0]], TOKEN.sub(replace, text))
    return WITH_DATA.sub(r'\1', text)


def read(path):
    with open(path, encoding='utf-8') as it:
        return it.read()


def write(path, text):
    os.makedirs(os.path.dirname(path), exist_ok=True)
    with open(path, 'w', encoding='utf-8') as it:
        it.write(text)


def root_items(text):
    """The lines of a root file behind its comment and its tactic."""
    lines = text.split('\n')
    at = next(i for i, line in enumerate(lines) if line.startswith('#![tactic'))
    return '\n'.join(lines[at + 1:]).strip('\n')


def merged_roots(one, other):
    """Two root files as one, with the comment of the first."""
    head, _, first = one.partition('#![tactic(auto)]')
    items = {'mod': [], 'use': [], 'rest': []}
    for text in (first, other.partition('#![tactic(auto)]')[2]):
        for item in re.findall(r'^(?:[^\n;{]*(?:\{[^}]*\})?;)', text, flags=re.M):
            kind = 'mod' if item.startswith(('mod ', 'pub mod ')) else 'use' if item.startswith(('use ', 'pub use ')) else 'rest'
            items[kind].append(item)
    assert not items['rest'], items['rest']
    parts = ['\n'.join(sorted(items['mod'])), '\n'.join(sorted(items['use'], key=lambda it: it.replace('{', '')))]
    return head + '#![tactic(auto)]\n\n' + '\n\n'.join(it for it in parts if it) + '\n'


def root_renamed(text, crate):
    """A root file, with the names of its modules replaced."""
    for (of, part, old), new in MODULES.items():
        if of == crate and part == 'src':
            text = re.sub(rf'\bmod {old};', f'mod {new};', text)
            text = re.sub(rf'\buse {old}::', f'use {new}::', text)
    return text


def library_renamed(text, crate, part):
    for (of, where, old), new in MODULES.items():
        if of == crate and where == part:
            text = re.sub(rf'\bmod {old}$', f'mod {new}', text, flags=re.M)
    return text


def place_of(crate, path):
    """Where a file of the crate goes, below the new crate."""
    parts = path.split('/')
    if parts[0] in ('src', 'specs', 'proofs') and len(parts) > 1:
        stem, dot, end = parts[1].partition('.')
        stem = module(crate, parts[0], stem)
        if parts[0] == 'proofs' and (len(parts) > 2 or not dot):
            stem = module(crate, 'src', stem)
            if crate in AT_ROOT and stem in AT_ROOT[crate][1]:
                stem = f'{AT_ROOT[crate][0]}/{stem}'
        parts[1] = stem + dot + end
    return '/'.join(IDENTIFIERS.get(it, it) for it in parts)


def edit_renamed(text, crate, is_word_free):
    lines = []
    for line in text.split('\n'):
        if line.startswith('file: '):
            lines.append('file: ' + place_of(crate, line[6:]))
        else:
            lines.append(renamed(line, crate, is_word_free))
    return '\n'.join(lines)


def files_below(top):
    for at, folders, names in os.walk(top):
        folders[:] = [it for it in sorted(folders) if it not in ('out', '.git', '__pycache__')]
        for name in sorted(names):
            yield os.path.relpath(f'{at}/{name}', top)


def move_crate(top, crate, made):
    """Puts the files of a crate into `made`, by their new places."""
    new, folder = NEW.get(crate, crate), f'{top}/crates/{crate}'
    is_word_free = not has_module(top, crate, 'cutting')
    for path in files_below(folder):
        try:
            text = read(f'{folder}/{path}')
        except UnicodeDecodeError:
            made[new, path] = open(f'{folder}/{path}', 'rb').read()
            continue
        if path.startswith('must-fail/'):
            text = edit_renamed(text, crate, is_word_free)
        elif path.endswith(('.rt', '.antt')):
            text = renamed(text, crate, is_word_free)
        if path == 'src/lib.rt':
            text = root_renamed(text, crate)
            if crate in AT_ROOT:
                name, functions = AT_ROOT[crate]
                made[new, f'src/{name}.rt'] = text.split('#![tactic(auto)]')[0] + root_items(text) + '\n'
                text = f'#![tactic(auto)]\n\nmod {name};\n\npub use {name}::{functions[0]};\n'
        if path in ('specs/Lib.antt', 'proofs/Lib.antt'):
            text = library_renamed(text, crate, path.split('/')[0])
        place = place_of(crate, path)
        if crate in MERGED and (new, place) in made:
            assert path in ('src/lib.rt', 'specs/Lib.antt', 'proofs/Lib.antt'), (crate, path)
            first = made[new, place]
            text = merged_roots(first, text) if path == 'src/lib.rt' else first.rstrip('\n') + '\n' + text.strip('\n') + '\n'
        elif crate in MERGED and path == 'src/lib.rt':
            raise SystemExit(f'{crate}: its first crate has no root file')
        assert (new, place) not in made or crate in MERGED, (new, place)
        made[new, place] = text


def list_renamed(text):
    """crates.txt, with the crates of each line merged."""
    lines, at = [], {}
    for line in text.split('\n'):
        found = re.fullmatch(r'([a-z_0-9]+)((?: [a-z_]+=\S+)*):(.*)', line)
        if not found:
            lines.append(line)
            continue
        name = NEW.get(found[1], found[1])
        needs = [NEW.get(it, it) for it in found[3].split()]
        if name not in at:
            at[name] = (len(lines), found[2], [])
            lines.append(None)
        at[name][2].extend(it for it in needs if it != name and it not in at[name][2])
    for name, (number, said, needs) in at.items():
        lines[number] = f'{name}{said}: {" ".join(dict.fromkeys(needs))}'.rstrip()
    return '\n'.join(lines)


def rename_crates(top):
    made, crates = {}, sorted(os.listdir(f'{top}/crates'), key=lambda it: (it in MERGED, it))
    order = [old for olds in CRATES.values() for old in olds]
    crates.sort(key=lambda it: order.index(it) if it in order else -1)
    for crate in crates:
        move_crate(top, crate, made)
    edits = f'{top}/tools/edits'
    kept = {}
    for crate in sorted(os.listdir(edits)) if os.path.isdir(edits) else []:
        is_word_free = not has_module(top, crate, 'cutting')
        for path in files_below(f'{edits}/{crate}'):
            place = (NEW.get(crate, crate), path)
            assert place not in kept, place
            kept[place] = edit_renamed(read(f'{edits}/{crate}/{path}'), crate, is_word_free)
    for crate in crates:
        for name in os.listdir(f'{top}/crates/{crate}'):
            if name != 'out':
                path = f'{top}/crates/{crate}/{name}'
                shutil.rmtree(path) if os.path.isdir(path) else os.remove(path)
        if crate in NEW:
            shutil.rmtree(f'{top}/crates/{crate}')
    shutil.rmtree(edits, ignore_errors=True)
    for (crate, path), text in made.items():
        if isinstance(text, bytes):
            os.makedirs(os.path.dirname(f'{top}/crates/{crate}/{path}'), exist_ok=True)
            open(f'{top}/crates/{crate}/{path}', 'wb').write(text)
        else:
            write(f'{top}/crates/{crate}/{path}', text)
    for (crate, path), text in kept.items():
        write(f'{edits}/{crate}/{path}', text)


def main(top='.'):
    rename_crates(top)
    write(f'{top}/crates.txt', list_renamed(read(f'{top}/crates.txt')))
    own = os.path.basename(__file__)
    for path in files_below(top):
        if path.startswith(('crates/', 'tools/edits/')) or path in ('crates.txt', f'tools/{own}'):
            continue
        try:
            text = read(f'{top}/{path}')
        except UnicodeDecodeError:
            continue
        new = renamed(text, None, True)
        new = new.replace('`cutting`', '`grammar`')
        if new != text:
            write(f'{top}/{path}', new)


if __name__ == '__main__':
    main(*sys.argv[1:])
