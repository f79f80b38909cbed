"""The commands of the tool: words and input to a status and what is written."""
from clvm_text import printed
from compiling import fault_line
from currying import curried
from evaluation import FULL, Failed, run
from making import made
from operators import Spent, Wide
from playing import output, replay, summary
from session_lines import SessionFault, session_of
from trees import spelled_size, spelling, tree_hash
from words import MOST_SPELLED, BadWords, InputFault, parse, tree_of_input

MOST_WRITTEN = 33_554_432


def no_library(name):
    return None


# A tree is written in hexadecimal, or as text; one whose spelling is longer than 33,554,432 bytes is `too-long`.
def written(tree, as_text=False):
    if spelled_size(tree) > MOST_WRITTEN:
        return 'too-long'
    return printed(tree) if as_text else spelling(tree).hex()


# The outcome of a run: its value and cost, why and which form failed, which count was spent, or that a number was wide.
def run_line(program, environment, cost, as_text):
    try:
        value, cost = run(program, environment, FULL._replace(cost=cost))
        return 'value %s cost %d' % (written(value, as_text), cost)
    except Failed as failure:
        raised = '' if failure.raised is None else ' ' + written(failure.raised, as_text)
        return 'failed %s%s %s' % (failure.why, raised, written(failure.form, as_text))
    except Spent as spent:
        return 'spent ' + spent.which
    except Wide:
        return 'wide'


def lines_of(command, options, trees, given, library, codes):
    if command == 'hash':
        return [tree_hash(tree_of_input(given)).hex()]
    if command == 'curry':
        return [written(curried(tree_of_input(given), trees))]
    if command == 'eval':
        return [run_line(tree_of_input(given), trees[0], options['cost'], 'text' in options)]
    if command == 'compile':
        _, line, found = fault_line(given, library)
        return [line] if line else found
    if command == 'replay':
        return replay(session_of(given, is_replay=True))
    if command == 'session':
        lines = output(session_of(given, library, codes))
        return summary(lines) if 'summary' in options else lines
    return made(options['seed'], options['commands'], options['lanes'])


# The first cause counts: wrong words (2), more input than 67,108,864 bytes (7), a fault of the input (1).
def play(words, given, library=no_library, codes=()):
    """The status and the bytes that are written; in place of these a good module, of which many codes may be written."""
    try:
        command, options, trees = parse(words)
    except BadWords:
        return 2, b'words\n'
    if command != 'make' and len(given) > MOST_SPELLED:
        return 7, b'too long\n'
    try:
        lines = lines_of(command, options, trees, given, library, codes)
    except (InputFault, SessionFault) as fault:
        return 1, str(fault).encode() + b'\n'
    if type(lines) is not list:
        return 0, lines
    status = int(command == 'compile' and lines[0].startswith('module '))
    return status, ''.join(it + '\n' for it in lines).encode()
