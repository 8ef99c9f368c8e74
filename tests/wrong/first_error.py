"""What the prover refused a wrong program for: the first thing in its log that does not merely follow from another.

A `fact` is what a contract, a law or a claim says and what does not hold. Two other ends show nothing of the contract, since every program of that
form would meet them: `shape`, where the code's goals have other names or are more or fewer than the proof answers, and `language`, where the text is no
program, or the language itself refuses it, as for a sum that wraps or an index past the end.
"""
import re

# An error, and what is not proved of a function whose proof is made by the kit: place, and words.
ERROR = re.compile(r'^(?:(\S+?:\d+:\d+): error: (.*)|note: (\S+?:\d+:\d+): (it is not proved that .*))$', re.M)
FOLLOWS = re.compile(r'^\d+ declarations? that depends? on|was not admitted')
# The goals that the language asks for, whatever the contract is; in a proof of functions that call each other the function's name stands before.
LANGUAGE = r'(overflow_\w+|nonzero_\w+|(slice_|offset_)?bounds)-'
SHAPE = re.compile(r'that can be named (from )?here|is not in scope|has no field|has no `|applied to an argument but|too (many|few) arguments')


class First:
    def __init__(self, kind, place, words):
        self.kind, self.place, self.words = kind, place, words

    def told(self):
        return 'at %s%s' % (self.place, {'fact': '', 'shape': ', FOR ITS SHAPE ALONE', 'language': ', BY THE LANGUAGE ALONE'}.get(self.kind, ', and why is not told'))


def kind_of(place, words):
    """Of an error at a place below its crate."""
    made = re.search(r'\(`([^`]+)`\)', words) if words.startswith('it is not proved') else re.match(r'`([^`]+)`', words)
    name = made.group(1) if made else ''
    if SHAPE.search(words) or (place.endswith('.antt') and name.endswith('_spec')):
        return 'shape'
    asked = re.search('-' + LANGUAGE, name) if '/+' in place else re.match(LANGUAGE, name)
    if asked or (not place.startswith('proofs/') and not words.startswith('it is not proved')):
        return 'language'
    return 'fact'


def first_error(log):
    """The first error of a log that does not follow from another; its place is told below its crate."""
    for m in ERROR.finditer(log):
        place, words = (m.group(1), m.group(2)) if m.group(1) else (m.group(3), m.group(4))
        if not FOLLOWS.search(words):
            place = re.sub(r'^.*?/(?=(src|specs|proofs)/)', '', place)
            bare = place.rsplit(':', 2)[0]
            return First(kind_of(bare, words), place, words)
    return First('', '', '')
