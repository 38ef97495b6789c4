"""Sphinx's settings for the reference of the Python package."""

import os
import sys

sys.path.insert(0, os.path.join(os.path.dirname(os.path.abspath(__file__)), ".."))

import blocktri  # noqa: E402

project = "blocktri"
release = version = blocktri.__version__
copyright = "2026, Bohanite"
extensions = ["sphinx.ext.autodoc", "sphinx.ext.autosummary", "numpydoc"]
exclude_patterns = ["html"]
html_theme = "alabaster"
html_copy_source = False
autosummary_generate = True
autosummary_imported_members = True
autodoc_typehints = "none"
numpydoc_class_members_toctree = False
numpydoc_show_inherited_class_members = False
numpydoc_xref_param_type = False
default_role = "autolink"
