"""What the scripts of this folder answer where they are given arguments that they do not take, their help or how they are called; and the
printing of questions."""
import sys


def help_or_use(doc, counts=(0,)):
    """Ends the script where help is asked for, or where there are not as many arguments as one of `counts`."""
    if sys.argv[1:] in (["-h"], ["--help"]):
        print(doc.strip())
        sys.exit(0)
    if len(sys.argv) - 1 not in counts:
        print(f"usage: python3 {sys.argv[0]}; --help says more", file=sys.stderr)
        sys.exit(2)


def show(doc, parts):
    """Prints each question of a script under its title, and the answer that it must get."""
    help_or_use(doc)
    for title, questions in parts:
        print("#", title)
        for question, answer in questions():
            print(question, "=>", answer)
