"""The commands, their arguments and their exit status."""
import argparse
import os
import sys

from .clean import clean
from .folder import contents, load_folder, read_file, refused_file, site_of_folder, write_folder
from .kinds import Fault, Faults, Refused
from .lines import shown, text_of
from .listing import named_listing, read_listing, read_refusal
from .text import MOST_MESSAGES, read_text
from .words import summary, write_text

DONE, REFUSED, BAD = 0, 1, 2


def load_text(path):
    site, notes = read_text(text_of(read_file(path), path), path)
    for note in notes:
        print(note, file=sys.stderr)
    return site


def check(args):
    print(f"{args.file}: {summary(load_text(args.file))}")


def build(args):
    site = load_text(args.file)
    files = contents(site, args.file)
    write_folder(args.out, files)
    print(f"{args.out}: {summary(site)}; rules.bin {len(files[0])} bytes, bundle.bin {len(files[1])} bytes")


def show(args):
    sys.stdout.write(write_text(load_folder(args.folder)))


def listing(args):
    if sys.stdin.isatty():
        print("note: the cleaner's output is read from standard input; 'site clean' runs the cleaner itself", file=sys.stderr)
    output = text_of(sys.stdin.buffer.read(), "output")
    try:
        site = site_of_folder(args.folder)
    except Refused as refused:
        messages = [refused_file(args.folder, refused)]
        if read_refusal(output) != refused.printed():
            first, _, _ = output.partition("\n")
            messages.append(f"output: expected '{refused}', found {shown(first)}")
        raise Faults(messages) from None
    try:
        sys.stdout.write(named_listing(site, read_listing(site, output)))
    except Fault as fault:
        raise Faults([f"output: {fault}"]) from None


def fact_number(word):
    if not word.isdigit():
        raise argparse.ArgumentTypeError(f"expected a fact's number, as the listing has it, found '{word}'")
    return int(word)


def arguments():
    parser = argparse.ArgumentParser(prog="site", description="the text of a site: cleaned in one go, judged, made into the cleaner's files, and back")
    commands = parser.add_subparsers(dest="command", required=True, metavar="COMMAND")
    one = commands.add_parser("clean", help="run the cleaner on texts or folders, print the listing with names")
    one.add_argument("sites", metavar="SITE", nargs="+", help="a text, or a folder with rules.bin and bundle.bin")
    one.add_argument("--explain", metavar="N", type=fact_number, help="say why fact N is dropped; for one site")
    one.add_argument("--listing", action="store_true", help="with several sites, print each listing too")
    one.add_argument("--program", metavar="PATH", help="the cleaner; else the one built beside the tool, else the one on the PATH")
    one = commands.add_parser("check", help="judge a text, write nothing")
    one.add_argument("file", metavar="FILE")
    one.set_defaults(run=check)
    one = commands.add_parser("build", help="write rules.bin, bundle.bin and names.txt")
    one.add_argument("file", metavar="FILE")
    one.add_argument("-o", dest="out", metavar="DIR", required=True, help="the folder to write to; made if missing")
    one.set_defaults(run=build)
    one = commands.add_parser("show", help="print the files of a folder as a text")
    one.add_argument("folder", metavar="DIR")
    one.set_defaults(run=show)
    one = commands.add_parser("listing", help="read the cleaner's output, print it with names")
    one.add_argument("folder", metavar="DIR")
    one.set_defaults(run=listing)
    return parser


def tell(error):
    """What went wrong, on standard error: the first messages in full, and how many more there are."""
    if isinstance(error, OSError):
        print(f"{error.filename or 'output'}: {error.strerror}", file=sys.stderr)
        return
    for message in error.messages[:MOST_MESSAGES]:
        print(message, file=sys.stderr)
    if len(error.messages) > MOST_MESSAGES:
        print(f"and {len(error.messages) - MOST_MESSAGES} more", file=sys.stderr)


def run(args):
    """Runs a command: its exit status."""
    if args.command == "clean":
        return clean(args, tell)
    try:
        args.run(args)
    except BrokenPipeError:
        raise
    except (Faults, OSError) as error:
        tell(error)
        return REFUSED
    return DONE


def main():
    parser = arguments()
    args = parser.parse_args()
    if args.command == "clean" and args.explain is not None and len(args.sites) > 1:
        parser.error("--explain N is for one site")
    try:
        status = run(args)
        sys.stdout.flush()
    except BrokenPipeError:  # whoever reads the output has read enough
        os.dup2(os.open(os.devnull, os.O_WRONLY), sys.stdout.fileno())
        return BAD
    return status
