"""tools/check-certificate as a module, so that many texts can be checked in one run of Python."""

import importlib.machinery
import importlib.util
from pathlib import Path

TOP = Path(__file__).resolve().parents[2]
TOOL = TOP / "tools" / "check-certificate"


def loaded():
    loader = importlib.machinery.SourceFileLoader("check_certificate", str(TOOL))
    module = importlib.util.module_from_spec(importlib.util.spec_from_loader(loader.name, loader))
    loader.exec_module(module)
    return module


MODULE = loaded()


def said(schema: bytes, question: list[str], text: bytes) -> str:
    """What the tool prints for a schema that isn't at fault."""
    try:
        MODULE.check(MODULE.Schema(schema), question[0], question[1:], text)
    except MODULE.Fault as fault:
        return fault.args[0]
    return "accepted"
