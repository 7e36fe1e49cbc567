"""Crates of theorems in a copy of the repository's crates: files in which each theorem is proved by refl."""
import pathlib
import re
import shutil

BELOW = ['laws', 'bufhash', 'buftag', 'bufmodel', 'shelf']

HEAD = '''-- Written by tests/model/vectors.py.
use Prim.Native.Nat.{ℕ, ◌+◌, ◌*◌}
use mathlib.Core.Path.{◌≡◌, refl}
use mathlib.Core.Bool.{true, false}
use mathlib.Core.List.{List, [], ◌∷◌, ◌++◌}
use lib.ListN.{length, get_or, replicate}
use lib.IntN.{ℤ, pos, negsuc}
use Rattle.laws.specs.First.{found, missing}
use Rattle.buftag.specs.Name.{file_of, name_of}
use Rattle.bufmodel.specs.Memory.{Memory}
use Rattle.bufmodel.specs.Checksum.{checksum, passes}
use Rattle.bufmodel.specs.Sizes.{sound_rows}
use Rattle.bufmodel.specs.Calls.{set_up}
use Rattle.bufmodel.specs.Step.{Call, Pin, Unpin, Read, Write, Flush, GiveBack, Checkpoint, Peek, Extend, Drop, LogInserted, LogFlushed}
use Rattle.bufmodel.specs.Lent.{Lent}
use Rattle.std.specs.Prelude.{Ok, Err}
use Rattle.bufmodel.specs.declared.answer.Peeked.TheVariants.{InPool, InStore}
use Rattle.bufmodel.specs.declared.refusal.Refusal.TheVariants.{Sizes, Books, NoFile, NoBlock, PinCount, AllPinned, NoBuffer, NotPinned}
use Rattle.bufmodel.specs.declared.refusal.Refusal.TheVariants.{Range, NoBytes, NotInserted, Earlier, FileFull, FilePinned, LogShorter}
use Rattle.bufmodel.specs.declared.refusal.Refusal.TheVariants.{FlushedBeyond, Checksum, Cap, NoHolder}
use Rattle.bufmodel.specs.Answer.{pinned_number, pinned_words, written_number, written_words, peeked_number, peeked_words}
use Rattle.bufmodel.specs.Answer.{extended_number, extended_words, accepted_number, accepted_words}
use Rattle.shelf.specs.Shelf.{Shelf}
use Rattle.shelf.specs.Ledger.{first_ledger}
use Rattle.model_seen.specs.Observe.{fill, list_seen, lent_seen, set_up_seen, call_seen, judged, refusals}
'''


class Module:
    """A file of theorems. A definition is unfolded in the theorems of its file."""

    def __init__(self, name, unfolding):
        self.name, self.unfolding, self.text, self.own, self.names = name, unfolding, [HEAD], [], {}

    def define(self, name, type_, term):
        self.text.append(f'unfoldable pub {name} : {type_}\n{name} = {term}\n')
        self.own.append(name)

    def shared(self, term):
        """A name for the bytes of a pool or store, which several memories may have."""
        if term not in self.names:
            self.names[term] = f'bytes-{len(self.names)}'
            self.define(self.names[term], 'List ℕ', term)
        return self.names[term]

    def state(self, name, term, literal, proof='refl'):
        self.text.append(f'pub {name} : {term} ≡ {literal}\nunfolding {" ".join(self.unfolding + self.own)}\n{name} = {proof}\n')


class Crate:
    def __init__(self, room, name, below):
        self.folder, self.modules = room / 'crates' / name, []
        for part in ('src', 'specs'):
            (self.folder / part).mkdir(parents=True)
        (self.folder / 'src' / 'lib.rt').write_text('// Definitions and theorems alone.\n')
        with (room / 'crates.txt').open('a') as file:
            file.write(f'\n{name}: {" ".join(below)}\n')

    def add(self, module, what):
        (self.folder / 'specs' / f'{module.name}.antt').write_text('\n'.join(module.text))
        self.modules.append(module.name)
        (self.folder / 'specs' / 'Lib.antt').write_text(''.join(f'pub mod {name}\n' for name in self.modules))
        print(self.folder.name, module.name, what)


def unfoldable(folder):
    """The names of a crate's definitions, for a line of unfolding."""
    for file in sorted((folder / 'specs').glob('*.antt')):
        for name in re.findall(r'^\s*unfoldable pub (\S+) :', file.read_text(), re.M):
            yield f'Rattle.{folder.name}.specs.{file.stem}.{name}'


def seen_crate(room):
    """The crate of what is looked at, and all names that its users unfold."""
    crate = Crate(room, 'model_seen', BELOW)
    # the file has another ending here, because every .antt file of the repository is to be in a listed crate
    shutil.copy(pathlib.Path(__file__).with_name('observe.txt'), crate.folder / 'specs' / 'Observe.antt')
    (crate.folder / 'specs' / 'Lib.antt').write_text('pub mod Observe\n')
    return [name for crate in [*BELOW, 'model_seen'] for name in unfoldable(room / 'crates' / crate)]
