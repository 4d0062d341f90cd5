"""What has to be believed: the pages of the promises, and the files of definitions that they lead into. For docs/check and docs/house."""
import re

CALLS = ['crates/answers/specs/Promises.antt', 'crates/answers/specs/Talking.antt', 'crates/dukthari/specs/Tight.antt']
TEXTS = ['crates/report/specs/Report.antt', 'crates/gossiping/specs/Text.antt', 'crates/rounds/specs/Promise.antt',
         'crates/audit/specs/Audit.antt', 'crates/audit/specs/Heading.antt', 'crates/audit/specs/Usage.antt']


def read(path):
    with open(path, encoding='utf-8') as f:
        return f.read()


def used_by(path):
    """The files of definitions that a file uses. Types that the code declares stand in its src/, and its contracts in its code: of both the toolchain
    writes the pages."""
    for crate, module in re.findall(r'^(?:pub )?use Rattle\.(?!std\.)(\w+)\.specs\.(\w+)', read(path), re.M):
        if module not in ('declared', 'contracts'):
            yield f'crates/{crate}/specs/{module}.antt'


def leads_into(pages):
    found, todo = set(), list(pages)
    while todo:
        path = todo.pop()
        if path not in found:
            found.add(path)
            todo.extend(used_by(path))
    return found
