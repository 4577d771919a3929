"""Settings of Sphinx for docs/site/build."""
import sys
import types
from pathlib import Path
from unittest.mock import MagicMock

TOP = Path(__file__).resolve().parents[2]
MODULE = TOP / 'bindings/python/src'


class Native(types.ModuleType):
    """In place of the native module, so that docstrings are read without a build."""

    def version(self):
        """Return the version that the package expects."""
        text = (MODULE / 'vortex_select/__init__.py').read_text()
        major, minor, patch = text.split('__version__ = "')[1].split('"')[0].split('.')
        return 1_000_000 * int(major) + 1_000 * int(minor) + int(patch)

    def __getattr__(self, name):
        if name.startswith('__'):
            raise AttributeError(name)
        return MagicMock(name=name)


sys.path.insert(0, str(MODULE))
sys.modules['vortex_select._native'] = Native('vortex_select._native')

project = 'Vortex column selection'
extensions = ['myst_parser', 'sphinx.ext.autodoc', 'sphinx.ext.napoleon']
source_suffix = {'.md': 'markdown', '.rst': 'restructuredtext'}
html_theme = 'alabaster'
html_theme_options = {'page_width': 'min(75rem, 96%)', 'sidebar_width': '17rem'}
html_static_path = []
autodoc_member_order = 'bysource'
autodoc_typehints = 'description'
napoleon_use_ivar = True
myst_heading_anchors = 3
# Code of Rattle has no lexer that knows all of it.
suppress_warnings = ['misc.highlighting_failure', 'myst.header']
