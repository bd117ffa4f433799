"""What the program tells, for comparisons with what a page shows."""
import os, re, subprocess


class Wrong(Exception):
    """The page shows something else."""


def run(manifest, steps, options=()):
    return subprocess.run([os.environ['MONDRIX'], 'run', manifest, str(steps), *options], stdin=subprocess.DEVNULL,
                          stdout=subprocess.PIPE, stderr=subprocess.PIPE, encoding='utf-8', check=True)


def report(*words):
    return run(*words).stderr.splitlines()


def console(*words):
    return run(*words).stdout


def right(rows, domain, address):
    """A domain's right on a word, and of domain 0 the word's owner, by a report."""
    kind = f'map {domain} ' if domain else 'owner '
    for *_, low, high, value in (row.split() for row in rows if row.startswith(kind)):
        if int(low, 16) <= address < int(high, 16):
            return value
    return 'none' if domain else '0'


def same(what, shown, told):
    if shown != told:
        raise Wrong(f'{what}:\n  the page:    {shown}\n  the program: {told}')


def has(text, *wanted):
    for each in wanted:
        if not re.search(each, text, re.S):
            raise Wrong(f'{each!r} is missing in: {text}')
