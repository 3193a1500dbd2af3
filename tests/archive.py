"""The front door with a stand-in for its program: in this process, and as an archive that tools/release lays out."""
import contextlib
import hashlib
import io
import json
import os
import pathlib
import shutil
import subprocess

TOP = pathlib.Path(__file__).resolve().parent.parent
STAND_IN, LISTS = TOP / "tests" / "standin.py", TOP / "tests" / "standin_connections.py"


class Door:
    """Calls the front door in this process, where tests/standin.py answers.

    With `has_connections` tests/judge tells what is open too, as connections does, in the place of a proved build.
    """

    has_connections = False

    def __init__(self, folder):
        self.top = pathlib.Path(folder)

    def write(self, name, value):
        """A file, as text or JSON; its path."""
        path = self.top / name
        path.parent.mkdir(parents=True, exist_ok=True)
        path.write_text(value if isinstance(value, str) else json.dumps(value))
        return str(path)

    def call(self, *words, given=""):
        """The status and the two outputs."""
        import front_random
        from wenirako import core, main, opened, programs

        out, err = io.StringIO(), io.StringIO()
        stdin, program = io.TextIOWrapper(io.BytesIO(given.encode())), programs.Program(["none"], False, "a stand-in")
        lists = program if self.has_connections else None
        known = {"found": lambda *_: program, "there": lambda *_: program, "connections": lambda *_: lists, "commit": lambda: "0123456789ab"}
        with contextlib.ExitStack() as stack:
            stack.enter_context(contextlib.redirect_stdout(out))
            stack.enter_context(contextlib.redirect_stderr(err))
            stack.enter_context(replaced(main.sys, stdin=stdin))
            stack.enter_context(replaced(main.programs, **known))
            stack.enter_context(replaced(core.Core, play=lambda _, *asked: front_random.in_process(*asked)))
            stack.enter_context(replaced(opened.Opened, play=lambda _, *asked: front_random.lines_of_connections(*asked)))
            try:
                status = main.asked_for(list(words), "wenirako")
            except SystemExit as ended:
                status = ended.code
        return status, out.getvalue(), err.getvalue()


@contextlib.contextmanager
def replaced(whole, **parts):
    """What has other parts for a while."""
    before = {name: getattr(whole, name) for name in parts}
    for name, it in parts.items():
        setattr(whole, name, it)
    try:
        yield
    finally:
        for name, it in before.items():
            setattr(whole, name, it)


def calling(program):
    """The text of a program that is another one."""
    return f'#!/bin/sh\nexec "{program}" "$@"\n'


class Archive:
    """A folder in which ./wenirako asks the stand-in, or another program of this text; and of `lists` too, as of what is proved."""

    def __init__(self, folder, program=None, lists=None):
        self.top = pathlib.Path(folder) / "archive"
        ignored = shutil.ignore_patterns("__pycache__")
        for name in ("tools", "recipes"):
            shutil.copytree(TOP / name, self.top / name, ignore=ignored)
        for name in ("wenirako", "play"):
            shutil.copy(TOP / name, self.top / name)
        (self.top / "bin").mkdir()
        files = {}
        for name, text in (("policyd", program or calling(STAND_IN)), ("connections", lists)):
            if text is not None:
                path = self.top / "bin" / name
                path.write_text(text)
                path.chmod(0o755)
                files[f"bin/{name}"] = hashlib.sha256(path.read_bytes()).hexdigest()
        (self.top / "MANIFEST.json").write_text(json.dumps({"commit": "0123456789ab", "proved": lists is not None, "files": files}))

    def write(self, name, value):
        """A file there, as text or JSON; its path."""
        path = self.top / name
        path.parent.mkdir(parents=True, exist_ok=True)
        path.write_text(value if isinstance(value, str) else json.dumps(value))
        return str(path)

    def call(self, *words, given=None, command="./wenirako", path=None):
        """The status and the two outputs of a command there."""
        env = {**os.environ, "PATH": f"{path}:{os.environ['PATH']}"} if path else os.environ
        how = {"stdin": subprocess.DEVNULL} if given is None else {"input": given}
        done = subprocess.run([command, *words], cwd=self.top, env=env, stdout=subprocess.PIPE, stderr=subprocess.PIPE, text=True, **how)
        return done.returncode, done.stdout, done.stderr
