"""The schema of the objects that the desk prints, by the program of docs/formats that reads it."""
import functools
import importlib.machinery
import importlib.util
import pathlib

FORMATS = pathlib.Path(__file__).resolve().parents[2] / "docs" / "formats"


@functools.lru_cache(maxsize=None)
def answers():
    """The schema answer.schema.json, as docs/formats/check_answers holds objects against it."""
    loader = importlib.machinery.SourceFileLoader("check_answers", str(FORMATS / "check_answers"))
    module = importlib.util.module_from_spec(importlib.util.spec_from_loader(loader.name, loader))
    loader.exec_module(module)
    return module.Schema((FORMATS / "answer.schema.json").read_text())


def fault_of(told):
    """Where an object isn't as the schema has it, None where it is."""
    return next(answers().faults(told), None)
