#!/usr/bin/env python3
"""Makes the specs of crates/meaning_examples: the definitions of the machine over maps that compute.

The library's finite maps do not compute outside their module, so that no row could be worked with them. This copies each
definition of the machine word for word, and puts sorted lists in the place of maps, and a stand-in that is its own argument
in the place of SHA-256. Run it after a change of a definition; with --check it only tells whether the copies are current.
"""
import os
import re
import sys

ROOT = os.path.join(os.path.dirname(os.path.abspath(__file__)), '..', 'crates')
OUT = os.path.join(ROOT, 'meaning_examples', 'specs')
COPIED = {
    'meaning_settling': ['Keyed', 'Settling', 'Apart', 'Settled'],
    'meaning_areas': ['Same', 'Commits', 'Branches', 'Copies', 'Lists', 'Finishing', 'Stands'],
    'meaning_merge': ['Merging', 'Restoring'],
    'meaning_system': ['Sql', 'State', 'Claims', 'Commands', 'Machine', 'Writes'],
}
MAPS = '''-- Sorted lists of entries, in the place of the library's finite maps: these compute.
use Rattle.std.specs.Prelude.{ℕ, Bool, not, List, [], ◌∷◌, length, map, Option}
use Rattle.std.specs.List.{filter}
use Rattle.std.specs.Ordering.{eq_by_cmp}
use Rattle.std.specs.declared.cmp.Ordering.{Ordering}
use Rattle.std.specs.FinMap.{find}
use Rattle.std.specs.declared.cmp.Ordering.TheVariants.{Less, Equal, Greater}

abbrev pub by_order : {A : Type 0} → Ordering → A → A → A → A
by_order Less a b c = a
by_order Equal a b c = b
by_order Greater a b c = c

abbrev pub put : {K X : Type 0} → (K → K → Ordering) → K → X → List (K × X) → List (K × X)
put R k v [] = (k, v) ∷ []
put R k v (e ∷ es) = by_order (R k e.0) ((k, v) ∷ e ∷ es) ((e.0, v) ∷ es) (e ∷ put R k v es)

pub record FinMap {K : Type 0} (R : K → K → Ordering) (X : Type 0) : Type 0 where
  pub list : List (K × X)

module _ {K X : Type 0} {R : K → K → Ordering} where
  abbrev pub entries : FinMap R X → List (K × X)
  entries m = m.list

  abbrev pub keys : FinMap R X → List K
  keys m = map (λ e. e.0) m.list

  abbrev pub empty : FinMap R X
  empty = record { list = [] }

  abbrev pub get : FinMap R X → K → Option X
  get m q = find R q m.list

  abbrev pub insert : FinMap R X → K → X → FinMap R X
  insert m k v = record { list = put R k v m.list }

  abbrev pub remove : FinMap R X → K → FinMap R X
  remove m k = record { list = filter (λ e. not (eq_by_cmp R k e.0)) m.list }

  abbrev pub retain_keys : FinMap R X → (K → Bool) → FinMap R X
  retain_keys m p = record { list = filter (λ e. p e.0) m.list }

  abbrev pub len : FinMap R X → ℕ
  len m = length m.list
'''
FILES = '''-- Files, their changes, and the commands on them, over maps that compute.
use Rattle.std.specs.Prelude.{ℕ, true, if◌then◌else◌, List, [], ◌∷◌, map, Option, Some, None, nat_lt, bytes_eq, option_and_then}
use Rattle.std.specs.Cmp.Lexicographic.{slice_cmp}
use Rattle.std.specs.Option.{unwrap_or}
use Rattle.std.specs.Ordering.{nat_cmp}
use Rattle.dl_base.specs.Limits.{most_files}
use Rattle.dl_base.specs.declared.answer.Answer.{Answer}
use Rattle.dl_base.specs.declared.answer.Answer.TheVariants as answers
use Rattle.dl_base.specs.declared.answer.FileRefusal.{FileRefusal}
use Rattle.dl_base.specs.declared.answer.FileRefusal.TheVariants as refusals
use Rattle.dl_base.specs.declared.answer.Limit.TheVariants as limits
use Rattle.dl_base.specs.declared.answer.Why.{Why}
use Rattle.dl_base.specs.declared.file.File.{File}
use Rattle.dl_base.specs.declared.file.FileChange.{FileChange}
use Rattle.dl_base.specs.declared.file.FileChange.TheVariants as changes
use Rattle.dl_base.specs.declared.file.FileCmd.{FileCmd}
use Rattle.dl_base.specs.declared.file.FileRow.{FileRow}
use Rattle.dl_base.specs.declared.file.FileWhat.{FileWhat}
use Rattle.dl_base.specs.declared.file.FileWhat.TheVariants as whats
use Rattle.dl_base.specs.declared.file.Owner.{Owner}
use Rattle.dl_base.specs.declared.value.LinkNo.{LinkNo}
use Rattle.meaning_examples.specs.Maps as maps

-- in the place of the digest
abbrev pub sha256 : List ℕ → List ℕ
sha256 bytes = bytes

abbrev pub Files : Type 0
Files = maps.FinMap (slice_cmp nat_cmp) File

'''


def read(crate, module):
    with open(os.path.join(ROOT, crate, 'specs', module + '.antt')) as f:
        return f.read()


def between(text, begin, end):
    start = text.index(begin)
    return text[start:text.index(end, start)] if end else text[start:]


def moved(text):
    for crate, modules in COPIED.items():
        for module in modules:
            text = text.replace(f'Rattle.{crate}.specs.{module}.', f'Rattle.meaning_examples.specs.{module}.')
            text = text.replace(f'Rattle.{crate}.specs.{module} as', f'Rattle.meaning_examples.specs.{module} as')
    for old, new in [
            ('Rattle.std.specs.FinMap as', 'Rattle.meaning_examples.specs.Maps as'),
            ('Rattle.meaning_files.specs.Files.', 'Rattle.meaning_examples.specs.UserFiles.'),
            ('Rattle.meaning_files.specs.Commands.', 'Rattle.meaning_examples.specs.UserFiles.'),
            ('Rattle.sha2.specs.Sha256.', 'Rattle.meaning_examples.specs.UserFiles.')]:
        text = text.replace(old, new)
    return text


def main():
    made = {'Maps': MAPS}
    made['UserFiles'] = (
        FILES + between(read('meaning_files', 'Files'), '-- the files with a new owner and', None) + '\n'
        + between(read('meaning_files', 'Commands'), '-- WHY A COMMAND IS REFUSED', None)).rstrip() + '\n'
    for crate, modules in COPIED.items():
        for module in modules:
            made[module] = moved(read(crate, module))
    made['Lib'] = ''.join(f'pub mod {module}\n' for module in made)
    old = []
    for module, text in made.items():
        path = os.path.join(OUT, module + '.antt')
        if not os.path.exists(path) or open(path).read() != text:
            old.append(module)
            if '--check' not in sys.argv:
                with open(path, 'w') as f:
                    f.write(text)
    print('changed: ' + ' '.join(old) if old else 'current')
    return 1 if old and '--check' in sys.argv else 0


if __name__ == '__main__':
    sys.exit(main())
