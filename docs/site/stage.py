"""Writes the pages of the site to a folder, for Sphinx: the pages of the repository, a page for each
header, the Python module, and the reference of vortex_select.

It fails if a link of a page leads to a file or a heading that isn't there. A link to a file that is no
page becomes text.

usage: stage.py FOLDER
"""
import re
import subprocess
import sys
from pathlib import Path

TOP = Path(__file__).resolve().parents[2]
LINK = re.compile(r'(!?)\[([^\]]*)\]\(([^)\s#]*)(#[^)\s]*)?\)')
FENCE = re.compile(r'(?ms)^```.*?^```$')
CHAPTERS = {
    'Start': ['README', 'docs/INSTALL', 'docs/RECIPES', 'CHANGELOG'],
    'Guides': ['docs/CALLING', 'docs/ARROW', 'docs/CHUNKS', 'docs/SCALE', 'bindings/README'],
    'The program': ['docs/PROGRAM', 'docs/DOCUMENT', 'docs/FORMAT', 'docs/PARTS'],
    'Reference': ['docs/ERRORS', 'docs/LIMITS', 'docs/OWNERSHIP', 'reference', 'python',
                  'vortex_select_h', 'vortex_arrow_h', 'vortex_parts_h', 'vortex_chunks_h'],
    'Proof': ['docs/PROVED', 'docs/DEFINITIONS', 'docs/READING'],
    'The project': ['docs/MAP', 'docs/DECISIONS', 'docs/DIFFERENCES', 'docs/SPEED',
                    'bench/MEASUREMENTS', 'docs/TESTING', 'CONTRIBUTING'],
}
MODULES = {'vortex_select': 'Columns, steps and parts', 'vortex_select.kernels': 'Flat lists',
           'vortex_select.parts': 'Tables in parts', 'vortex_select.chunks': 'Stores in chunks',
           'vortex_select.program': 'The program'}
RST = '.. automodule:: {name}\n   :members:\n   :imported-members:\n'


def pages():
    """Return the pages of the repository, by their paths."""
    forms = ('*.md', 'docs/*.md', 'bindings/README.md', 'bench/MEASUREMENTS.md',
             'bench/kernels/MEASURED.md', 'crates/README.md', 'crates/*/README.md')
    return [path.relative_to(TOP) for form in forms for path in sorted(TOP.glob(form))]


def anchors(path):
    """Return the anchors of a page's headings."""
    titles = re.findall(r'(?m)^#+ (.*)$', FENCE.sub('', path.read_text()))
    return {'#' + re.sub(r'[^\w\- ]', '', title.lower()).replace(' ', '-') for title in titles}


def fault_of(page, target, anchor):
    """Return what is wrong with a link of a page, or nothing."""
    path = (TOP / page.parent / target).resolve() if target else TOP / page
    if not path.exists():
        return f'{page}: {target} does not exist'
    if anchor and path.suffix == '.md' and anchor not in anchors(path):
        return f'{page}: {target} has no heading {anchor}'
    return None


def staged(page, known):
    """Return the text of a page with links that Sphinx knows, and the faults of its links."""
    wrong = []

    def link(found):
        mark, text, target, anchor = found[1], found[2], found[3], found[4] or ''
        if re.match(r'\w+:', target):
            return found[0]
        fault = fault_of(page, target, anchor)
        wrong.extend([fault] if fault else [])
        path = (TOP / page.parent / target).resolve()
        is_known = not target or path in known or mark
        return found[0] if is_known or fault else text

    text = (TOP / page).read_text()
    code = FENCE.findall(text)
    prose = LINK.sub(link, FENCE.sub('\0', text))
    for block in code:
        prose = prose.replace('\0', block, 1)
    return prose, wrong


def page_of_header(path):
    """Return a page of a header: each comment, and the declarations that follow it."""
    parts = re.split(r'/\*(.*?)\*/', path.read_text(), flags=re.S)
    lines = [f'# {path.name}', '']
    for comment, code in zip(parts[1::2], parts[2::2]):
        is_own_line = '\n' in comment or comment.strip().endswith('.')
        if is_own_line:
            lines += [re.sub(r'(?m)^ *\* ?', '', comment).strip(), '']
        if code.strip():
            lines += ['```c', code.strip('\n'), '```', '']
    return '\n'.join(lines)


def index(folder):
    """Return the first page: the tables of contents, with the pages that there are."""
    lines = ['# Vortex column selection', '']
    for chapter, names in CHAPTERS.items():
        there = [name for name in names if list(folder.glob(f'{name}.*'))]
        lines += ['```{toctree}', f':caption: {chapter}', ':maxdepth: 1', '', *there, '```', '']
    crates = [f'crates/{path.parent.name}/README' for path in sorted(folder.glob('crates/*/README.md'))]
    lines += ['```{toctree}', ':caption: Crates', ':maxdepth: 1', '', 'crates/README', *crates, '```']
    return '\n'.join([*lines, '', '```{toctree}', ':hidden:', '', 'bench/kernels/MEASURED', '```', ''])


def python_page():
    """Return the page of the Python module."""
    lines = ['The Python module', '=================', '']
    for name, title in MODULES.items():
        path = TOP / 'bindings/python/src' / name.replace('.', '/')
        if path.is_dir() or path.with_suffix('.py').exists():
            lines += [title, '-' * len(title), '', RST.format(name=name)]
    return '\n'.join(lines)


def write(path, text):
    """Write a file, and the folders that it lies in."""
    path.parent.mkdir(parents=True, exist_ok=True)
    path.write_text(text)


def main():
    folder, known, wrong = Path(sys.argv[1]), {TOP / page for page in pages()}, []
    for page in pages():
        text, faults = staged(page, known)
        wrong += faults
        write(folder / page, text)
    for picture in sorted((TOP / 'docs').glob('*.svg')):
        write(folder / 'docs' / picture.name, picture.read_text())
    for header in sorted((TOP / 'include').glob('*.h')):
        write(folder / f'{header.stem}_h.md', page_of_header(header))
    reference = subprocess.run([TOP / 'docs/reference'], stdout=subprocess.PIPE, check=True)
    write(folder / 'reference.md', reference.stdout.decode())
    write(folder / 'python.rst', python_page())
    write(folder / 'index.md', index(folder))
    print(*(f'site: {fault}' for fault in wrong), sep='\n' if wrong else '', end='\n' if wrong else '')
    sys.exit(1 if wrong else 0)


if __name__ == '__main__':
    main()
