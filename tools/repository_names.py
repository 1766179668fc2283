"""The names of the repository that docs/trace.toml may cite, each with its file and line.

    page_word/Word.odd              a definition: `odd` in crates/page_word/specs/Word.antt; Record.field is a field of a record
    page_word::get                  a call: the public function `get` of the crate page_word
    line_mode/proofs/Windows.Apart  a theorem: `Apart` in crates/line_mode/proofs/Windows.antt
    line_mode/time_backwards        a wrong answer in one of the edits in crates/line_mode/must-fail
    tests/c/run, tests/a.rs:holds   a file below one of FOLDERS, or a function in it"""
import re

from public_functions import exported
from wrong_answers import of_repository

# The folders of files that may be cited; every other name that begins with a folder begins with a crate.
FOLDERS = ('.ci', 'bench', 'crates', 'docs', 'examples', 'include', 'samples', 'second', 'tests', 'tools')


def declared(source):
    """The public names of an antt file, also those in a module, and the public fields of its records as Record.field, with their lines."""
    blocks = []
    for number, line in enumerate(source.splitlines(), 1):
        text = line.strip()
        if not text or text.startswith('--'):
            continue
        depth = len(line) - len(line.lstrip())
        while blocks and blocks[-1][0] >= depth:
            blocks.pop()
        found = re.match(r'(?:\w+ )*?pub (?:(record|data|mod|use) )?([^\s:]+)', text)
        inside = blocks[-1][1] if blocks else ''
        if found and found[1] not in ('mod', 'use'):
            yield (f'{inside}.{found[2]}' if inside else found[2]), number
        if re.match(r'(?:pub )?(?:record|data) ', text):
            blocks.append((depth, found[2] if found else 'hidden'))
        elif text.startswith('module '):
            blocks.append((depth, ''))


class Repository:
    """The names that may be cited, by kind, each with its file and line."""

    def __init__(self, root):
        self.root = root
        self.definitions, self.calls, self.theorems = {}, {}, {}
        for crate in sorted(path for path in (root / 'crates').iterdir() if path.is_dir()):
            self.definitions.update(self.antt(crate, 'specs', ''))
            self.theorems.update(self.antt(crate, 'proofs', 'proofs/'))
            sources = {path.stem: path.read_text() for path in crate.glob('src/*.rt')}
            for name, (file, line) in exported(sources).items():
                self.calls[f'{crate.name}::{name}'] = (f'crates/{crate.name}/src/{file}.rt', line)
        self.wrong_answers = {wrong.title(): (wrong.path(), wrong.line) for wrong in of_repository(root)}

    @staticmethod
    def antt(crate, side, before):
        for path in sorted(crate.glob(f'{side}/*.antt')):
            for name, line in declared(path.read_text()):
                yield f'{crate.name}/{before}{path.stem}.{name}', (f'crates/{crate.name}/{side}/{path.name}', line)

    def text(self, path):
        """What a file has, or nothing if there is none."""
        return (self.root / path).read_text(errors='replace') if (self.root / path).is_file() else None

    def in_file(self, cited, is_test=False):
        """The file, and the line of the function that is named behind a colon; nothing if either is not there."""
        path, _, function = cited.partition(':')
        text = self.text(path)
        if text is None or not function:
            return None if text is None else (path, None)
        before = r'#\[test\]\s+fn' if is_test and path.endswith('.rs') else r'\b(?:fn|def|void)'
        found = re.search(rf'{before}(?=\s+{re.escape(function)}\b)', text)
        return (path, text.count('\n', 0, found.end()) + 1) if found else None

    def place(self, kind, name):
        """The file and line of a name that a list of this kind cites; nothing if there is none."""
        if kind == 'tests' or kind == 'definitions' and name.split('/')[0] in FOLDERS:
            return self.in_file(name, kind == 'tests')
        return getattr(self, kind).get(name)

    def kind(self, name):
        """The kind of list that a name belongs in, nothing if there is no such name. A file of one of FOLDERS counts as a test."""
        kinds = ['tests'] if name.split('/')[0] in FOLDERS else ['definitions', 'calls', 'theorems', 'wrong_answers']
        return next((kind for kind in kinds if self.place(kind, name)), None)

    def place_in_words(self, name):
        """The file and line of a name that stands in a sentence; nothing if there is none."""
        for every in (self.definitions, self.calls, self.theorems, self.wrong_answers):
            if name in every:
                return every[name]
        return self.in_file(name)


# A sample of each kind of file, with the names and lines in it.

ANTT = '''-- pub in-a-comment : ℕ
pub mod Other
pub use a.Given.{Given}
abbrev pub first : ℕ → ℕ
first n = n
pub record Both (n : ℕ) : Type 0 where
  pub one : n ≡ 1
  -- pub two : n ≡ 2
  three : n ≡ 3
hidden : ℕ
module _ (n : ℕ)
    (m : ℕ) where
    pub record Inner : Type 0 where
      pub left : n ≡ m
    pub law-of : n ≡ m
    unfolding first
'''
DECLARED = [('first', 4), ('Both', 6), ('Both.one', 7), ('Inner', 13), ('Inner.left', 14), ('law-of', 15)]
CRATE = {
    'lib': 'mod a;\npub use a::shown;\npub use a::{Kind, Other};\n// pub fn no() {}\n'
           'pub extern "C" fn own(x: u8) -> u8 { x }\npub(crate) fn not() {}\n',
    'a': 'pub fn shown() {}\npub fn unshown() {}\npub struct Kind {}\n'
         'impl Kind {\n    pub fn made() -> Self { Kind {} }\n    fn inner() {}\n}\nimpl Hidden {\n    pub fn unseen() {}\n}\n'
         'struct Hidden {}\nimpl From<Result<Kind, u8>> for u64 {\n    fn from(x: Result<Kind, u8>) -> u64 { 0 }\n}\n'
         'impl From<Kind> for Hidden {\n    fn from(x: Kind) -> Hidden { Hidden {} }\n}\nimpl Display for Kind {\n    fn fmt(&self) {}\n}\n',
}
EXPORTED = {'shown': ('a', 1), 'own': ('lib', 5), 'Kind::made': ('a', 5), 'U64FromResultKindU8::from': ('a', 13)}


def tells_its_samples():
    return list(declared(ANTT)) == DECLARED and exported(CRATE) == EXPORTED
