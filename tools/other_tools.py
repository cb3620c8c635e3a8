"""The tools that are programs, as modules: what one of them has, another one can use."""

import importlib.machinery
import importlib.util
import pathlib

TOOLS = pathlib.Path(__file__).resolve().parent


def load_tool(name):
    """A tool as a module."""
    loader = importlib.machinery.SourceFileLoader(name, str(TOOLS / name))
    made = importlib.util.module_from_spec(importlib.util.spec_from_loader(name, loader))
    loader.exec_module(made)
    return made
