"""Runs tools/pack many times: many_packs TOOLS, with a JSON list of its words on each line of standard input.

The tool is loaded once, and each run is a process of its own that is forked from there, since a start of Python takes longer than most
runs. For each a line is written, a JSON list: the status, and what came on standard error. A run of more than a minute, or one that wants
more than a gigabyte of memory, fails as a kill or a traceback does.
"""
import importlib.machinery
import importlib.util
import json
import os
import resource
import sys
import tempfile
import traceback

sys.dont_write_bytecode = True
MOST_MEMORY, MOST_SECONDS = 1 << 30, 60


def loaded(tools):
    sys.path.insert(0, tools)
    loader = importlib.machinery.SourceFileLoader("pack", os.path.join(tools, "pack"))
    module = importlib.util.module_from_spec(importlib.util.spec_from_loader("pack", loader))
    loader.exec_module(module)
    return module


def run(module, words, told):
    """The status of a run, in the process that is forked for it."""
    os.dup2(told, 2)
    sys.stderr = open(2, "w", closefd=False)
    sys.argv = ["pack", *words]
    resource.setrlimit(resource.RLIMIT_AS, (MOST_MEMORY, MOST_MEMORY))
    resource.setrlimit(resource.RLIMIT_CPU, (MOST_SECONDS, MOST_SECONDS))
    try:
        module.main()
        return 0
    except SystemExit as ended:
        if isinstance(ended.code, str):
            print(ended.code, file=sys.stderr)
            return 1
        return ended.code or 0
    except BaseException:
        traceback.print_exc()
        return 99


def main():
    module = loaded(sys.argv[1])
    for line in sys.stdin:
        with tempfile.TemporaryFile() as told:
            child = os.fork()
            if not child:
                status = 99
                try:
                    status = run(module, json.loads(line), told.fileno())
                    sys.stderr.flush()
                finally:
                    os._exit(status)
            _, ended = os.waitpid(child, 0)
            told.seek(0)
            print(json.dumps([os.waitstatus_to_exitcode(ended), told.read().decode(errors="replace")]), flush=True)


if __name__ == "__main__":
    main()
