"""What is listed of the sources: the tests of crates and tools with their sentences, the words of
`specs/`, and the contracts that cite them. Sources are read line by line, by their layout, which
`rt fmt` keeps."""

from __future__ import annotations

import ast
import re
from dataclasses import dataclass
from pathlib import Path
from typing import Dict, Iterator, List, Tuple

from building.crates import read_uses

TOP = Path(__file__).resolve().parent.parent.parent
CRATES = TOP / 'crates'
TOOLS_TESTS = TOP / 'tools' / 'tests'
CASES = TOOLS_TESTS / 'data' / 'cases'

# inside a module with parameters a word is indented
WORD = re.compile(r" *(?:abbrev pub|unfoldable pub|opaque pub|pub record|pub data) ([^\s:({]+)")
IMPL = re.compile(r'(?:impl|trait|pub trait)\b(?:<[^>]*>)? (?:[\w:<>, ]+ for )?(\w+)')
FUNCTION = re.compile(r'(\s*)(pub )?(?:const )?fn (\w+)')
IDENTIFIER = re.compile(r"[A-Za-z_][\w']*")


@dataclass(frozen=True)
class DescribedTest:
    """A test: the name of its function or file, and the sentence that says what it shows."""

    name: str
    sentence: str


@dataclass(frozen=True)
class Word:
    """A public word of `specs/`: its name, its file there without the suffix, and the comment above
    it."""

    name: str
    file: str
    sentence: str


@dataclass(frozen=True)
class Citation:
    """A citation of a word by a contract: the word's crate, the word, and the call that has the
    contract. A call of another crate than the word's has the name of its own crate before it."""

    word_crate: str
    word: str
    call: str


def crate_names() -> List[str]:
    """The crates of crates.txt, in its order. Refused as in read_uses()."""
    return list(read_uses(TOP))


def crate_files(crate: str, folder: str, suffix: str) -> List[Path]:
    """The files whose names end in a suffix, in a folder of a crate and the folders below it;
    sorted. Empty if the crate has no such folder."""
    return sorted((CRATES / crate / folder).rglob(f'*{suffix}'))


def comment_above(lines: List[str], index: int, mark: str) -> str:
    """The comment that ends above the line with this index, as one text, without the mark with
    which each of its lines begins. Attributes of one line between the comment and that line are
    passed over. Empty if there is no comment."""
    comment: List[str] = []
    for line in reversed(lines[:index]):
        text = line.strip()
        if text.startswith(mark):
            comment.insert(0, text[len(mark) :].strip())
        elif comment or not text.startswith('#['):
            break
    return ' '.join(comment)


def tests_in(path: Path) -> List[DescribedTest]:
    """The tests of a file of a crate, in their order; a test without a comment has an empty
    sentence. Only a `#[test]` that is alone in its line counts: StopIteration if no function
    follows it. OSError if the file can't be read."""
    lines = path.read_text(encoding='utf-8').splitlines()
    tests: List[DescribedTest] = []
    for index, line in enumerate(lines):
        if line.strip() == '#[test]':
            head = next(filter(None, map(FUNCTION.match, lines[index:])))
            tests.append(DescribedTest(head.group(3), comment_above(lines, index, '///')))
    return tests


def read_head_comment(path: Path) -> str:
    """The comment `//!` that a source file begins with, as one text; empty if the file begins
    otherwise. OSError if it can't be read."""
    comment: List[str] = []
    for line in path.read_text(encoding='utf-8').splitlines():
        if not line.startswith('//!'):
            break
        comment.append(line[len('//!') :].strip())
    return ' '.join(comment)


def tests_of_tools() -> List[DescribedTest]:
    """The files of the tools' tests, sorted. The sentence of a file is its docstring, as one line,
    or empty if there is none. SyntaxError if a file isn't Python."""
    tests: List[DescribedTest] = []
    for path in sorted(TOOLS_TESTS.glob('test_*.py')):
        text = ast.get_docstring(ast.parse(path.read_text(encoding='utf-8'))) or ''
        tests.append(DescribedTest(path.name, ' '.join(text.split())))
    return tests


def case_areas() -> List[str]:
    """The names of the folders of CASES, sorted: each is an area of what is tested. OSError if
    CASES isn't there."""
    return sorted(path.name for path in CASES.iterdir() if path.is_dir())


def cases_in(area: str) -> List[DescribedTest]:
    """The tests of a folder of CASES, sorted by file. The sentence of a test is the text before the
    first section of its file, as one line. Empty if there is no such folder. OSError if a file
    can't be read."""
    cases: List[DescribedTest] = []
    for path in sorted((CASES / area).glob('*.case')):
        text = path.read_text(encoding='utf-8').partition('\n== ')[0]
        cases.append(DescribedTest(path.stem, ' '.join(text.split())))
    return cases


def edits_of(crate: str) -> List[str]:
    """The names of a crate's must-fail edits, sorted."""
    return [path.stem for path in crate_files(crate, 'must-fail', '.edit')]


def words_in(path: Path, file_name: str) -> List[Word]:
    """The public words of a file of specs/, in their order. `path` is the path of the file, and
    file_name what each Word has as its file. The sentence of a word without a comment is empty.
    OSError if the file can't be read."""
    lines = path.read_text(encoding='utf-8').splitlines()
    words: List[Word] = []
    for index, line in enumerate(lines):
        head = WORD.match(line)
        if head is not None:
            words.append(Word(head.group(1), file_name, comment_above(lines, index, '--')))
    return words


def words_of(crate: str) -> List[Word]:
    """The public words of a crate's `specs/`, sorted by file, and in the order of each file. Empty
    if the crate has no such folder; errors as words_in()."""
    folder = CRATES / crate / 'specs'
    return [
        word
        for path in crate_files(crate, 'specs', '.antt')
        for word in words_in(path, str(path.relative_to(folder))[: -len('.antt')])
    ]


def contracts_in(source: str) -> Iterator[Tuple[str, str]]:
    """Each public function of a source, and each method of an `impl` or `trait`, public or not,
    with the text of its contract, which may be empty. A function is named `name`, a method
    `Type::name`, or `Trait::name` in a trait. What is `pub(crate)` isn't public here."""
    owner, lines = '', source.splitlines()
    for index, line in enumerate(lines):
        if line and not line[0].isspace():
            match = IMPL.match(line)
            owner = match.group(1) if match else ''
        head = FUNCTION.match(line)
        if head is not None and (head.group(2) or owner):
            indent, _, name = head.groups()
            call = f'{owner}::{name}' if owner else name
            has_contract = not line.endswith('{')
            yield call, contract_text(lines[index + 1 :], indent) if has_contract else ''


def contract_text(lines: List[str], indent: str) -> str:
    """The rest of a function's head, which has the contract: the lines after that of its name, up
    to the brace of its body, an empty line, or the file's end; further parameters are among them.
    `indent` is the function's. The line of the name must not end with the body's brace: these lines
    would be the body."""
    clauses: List[str] = []
    for line in lines:
        if line.startswith((f'{indent}{{', f'{indent}}}')) or not line.strip():
            break
        clauses.append(line)
    return '\n'.join(clauses)


def citations_in(path: Path, crate: str) -> List[Citation]:
    """The citations of words by the contracts in a file of a crate, in their order. A contract that
    cites a word more than once has equal ones. OSError if the file can't be read."""
    source = path.read_text(encoding='utf-8')
    word_crates = crates_of_words(crate, source)
    return [
        Citation(
            word_crate=word_crates[word],
            word=word,
            call=call if word_crates[word] == crate else f'{crate} {call}',
        )
        for call, contract in contracts_in(source)
        for word in IDENTIFIER.findall(contract)
        if word in word_crates
    ]


def citations() -> Dict[str, Dict[str, List[str]]]:
    """By crate and by its word, the calls of all crates whose contracts cite the word, each once,
    as Citation has them. A word that a contract has after a module's name isn't found. All sources
    are read: OSError if one can't be read."""
    files = [(path, crate) for crate in crate_names() for path in crate_files(crate, 'src', '.rt')]
    all_citations = dict.fromkeys(
        citation for path, crate in files for citation in citations_in(path, crate)
    )
    calls: Dict[str, Dict[str, List[str]]] = {}
    for citation in all_citations:
        calls_by_word = calls.setdefault(citation.word_crate, {})
        calls_by_word.setdefault(citation.word, []).append(citation.call)
    return calls


def crates_of_words(crate: str, source: str) -> Dict[str, str]:
    """The crate of each word that a source imports by its name, as `ghost use ..{word, word}`.
    `crate` is the source's own crate. Words that are imported in any other way are left out."""
    imports = re.findall(r'ghost use (?:Rattle\.)?(\w+)[.:]+specs[\w.:]*\.\{([^}]*)\}', source)
    return {
        word.strip(): crate if word_crate == 'crate' else word_crate
        for word_crate, words in imports
        for word in words.split(',')
    }
