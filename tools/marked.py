"""Files in which a script writes what stands between two markers: shared by the scripts that do."""
import sys
from pathlib import Path

ROOT = Path(__file__).resolve().parent.parent


def replaced(name, text, markers, block):
    """A file's text with the block between its markers."""
    begin, end = markers
    if text.count(begin) != 1 or text.count(end) != 1 or text.index(begin) > text.index(end):
        sys.exit(f'{name} does not have these two lines, each once:\n{begin}{end}')
    return text[:text.index(begin)] + begin + block + text[text.index(end):]


def written(blocks):
    """The whole content of each file, from the pairs of markers and block that it is to have."""
    files = {}
    for name, parts in blocks.items():
        text = (ROOT / name).read_text()
        for markers, block in parts:
            text = replaced(name, text, markers, block)
        files[name] = text
    return files


def check(files, script):
    wrong = [name for name, text in files.items() if (ROOT / name).read_text() != text]
    for name in wrong:
        print(f'{name} is not what {script} writes')
    sys.exit(1 if wrong else 0)


def put(files, script, usage):
    """Writes the files, by path, or with --check fails where one would be another."""
    if sys.argv[1:] == ['--check']:
        check(files, script)
    if sys.argv[1:]:
        sys.exit(usage)
    for name, text in files.items():
        (ROOT / name).write_text(text)


def run(blocks, script, usage):
    """Puts the files that have these blocks between their markers."""
    put(written(blocks), script, usage)
