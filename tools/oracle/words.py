"""The words of a command: what cannot be done is one line on standard error and
status 2."""
import argparse
import os
import pathlib
import shutil
import sys

MOST = 2**64 - 1
RUST = ("codegen.rs", "ast.rs", "bpf.rs", "vm.rs")
SRC_IS = "SRC is the folder that holds pktbaffle/src"


def stop(message):
    print(f"{pathlib.Path(sys.argv[0]).name}: {message}", file=sys.stderr)
    sys.exit(2)


class Words(argparse.ArgumentParser):
    """A parser whose --help is the script's own text."""

    def __init__(self, text):
        form = argparse.RawDescriptionHelpFormatter
        super().__init__(description=text, formatter_class=form, usage=argparse.SUPPRESS, allow_abbrev=False)

    def format_help(self):
        return self.description.strip() + "\n"

    def error(self, message):
        self.exit(2, f"{self.prog}: {message} (see --help)\n")


def number(text, least=0):
    if text.isascii() and text.isdigit() and least <= int(text) <= MOST:
        return int(text)
    raise argparse.ArgumentTypeError(f"not a number from {least} to {MOST}: {text}")


def positive(text):
    return number(text, 1)


def source(text):
    """The folder that holds pktbaffle/src."""
    for name in RUST:
        if not (pathlib.Path(text) / "pktbaffle" / "src" / name).is_file():
            raise argparse.ArgumentTypeError(f"no {text}/pktbaffle/src/{name}: {SRC_IS}")
    return pathlib.Path(text).resolve()


def need(*programs):
    for program in programs:
        if not shutil.which(program):
            stop(f"{program} is not installed")


def run(main):
    """Runs a command; a file that cannot be read or written is one line."""
    try:
        sys.exit(main())
    except BrokenPipeError:
        # the reader is gone: nothing more can be said to it
        os.dup2(os.open(os.devnull, os.O_WRONLY), sys.stdout.fileno())
        sys.exit(2)
    except OSError as problem:
        stop(f"{problem.filename}: {problem.strerror}")
    except KeyboardInterrupt:
        stop("interrupted")


def stored(text, crate, make, show):
    """A command that makes stored cases by SEED [DIR] or prints them by --show [DIR]."""
    parser = Words(text)
    parser.add_argument("seed", metavar="SEED", nargs="?", type=number)
    parser.add_argument("directory", metavar="DIR", nargs="?", type=pathlib.Path, default=crate)
    parser.add_argument("--show", metavar="DIR", nargs="?", type=pathlib.Path, const=crate)
    args = parser.parse_args()
    if (args.seed is None) == (args.show is None):
        parser.error("wants SEED or --show")
    if args.show:
        run(lambda: show(args.show))
    else:
        run(lambda: make(args.seed, args.directory))
