"""Changes the pixels of tiles by an expression of x, their numbers.

    hipsctl tile 'x + 100' 7 8
    hipsctl tile --physical 'where(x > 3.5, 3.5, x)' Norder3/Dir0/Npix7.fits

x is the stored number, or with --physical that times BSCALE plus BZERO. The result is stored as the nearest number. Blank pixels stay.
An expression has numbers, x, pi, + - * / // % ** & | ~, comparisons, and the functions abs, arctan2, ceil, clip, cos, exp, floor, log,
log10, maximum, minimum, rint, sin, sqrt, tan and where.

Nothing is sent if a result is no number, doesn't fit the pixel, or is that of blank ones. A server shows tiles as they were last
published: while edits aren't published nothing is done, since they may be of these leaves.
"""

import ast
import operator

from hipsctl.client import add_server
from hipsctl.editing import Sender, say_accepted, send_all
from hipsctl.headers import cards_of, real
from hipsctl.messages import Refused, say, shown
from hipsctl.survey import leaf_of, tile_path

FUNCTIONS = "abs arctan2 ceil clip cos exp floor log log10 maximum minimum rint sin sqrt tan where".split()
OPERATORS = {
    ast.Add: operator.add, ast.Sub: operator.sub, ast.Mult: operator.mul, ast.Div: operator.truediv, ast.FloorDiv: operator.floordiv,
    ast.Mod: operator.mod, ast.Pow: operator.pow, ast.BitAnd: operator.and_, ast.BitOr: operator.or_, ast.Lt: operator.lt, ast.LtE: operator.le,
    ast.Gt: operator.gt, ast.GtE: operator.ge, ast.Eq: operator.eq, ast.NotEq: operator.ne, ast.USub: operator.neg, ast.UAdd: operator.pos,
    ast.Invert: operator.invert,
}
TYPES = {8: ">u1", 16: ">i2", 32: ">i4", 64: ">i8"}


def add_words(parser):
    add_server(parser)
    parser.add_argument("--physical", action="store_true", help="x and the result are physical values, and not stored numbers")
    parser.add_argument("expression", metavar="EXPRESSION", help="as 'x + 100'; one that begins with - stands behind a word --")
    parser.add_argument("leaves", nargs="+", metavar="LEAF", help="the number of a leaf, or the path of its tile")


def run(told):
    try:
        import numpy
    except ImportError as fault:
        raise Refused(f"{fault}: sudo apt install python3-numpy", 3) from None
    function = expression(told.expression, numpy)
    sender = Sender(told)
    leaves = list(dict.fromkeys(leaf_of(text, sender.order) for text in told.leaves))
    changed = [(leaf, None, change(sender, leaf, function, told.physical, numpy)) for leaf in leaves]
    before = sender.edits
    send_all(sender, "replace", changed, len(changed))
    say_accepted(sender, len(changed))
    if sender.edits != before + len(changed):
        say(f"others have edited meanwhile ({sender.edits - before - len(changed):,} edits): see whether one was of these leaves, and is undone")


def expression(text, numpy):
    """A function of x."""
    known = {name: getattr(numpy, name) for name in FUNCTIONS}

    def value(node, x):
        match node:
            case ast.Expression(body=body):
                return value(body, x)
            case ast.Name(id="x"):
                return x
            case ast.Name(id="pi"):
                return numpy.longdouble(numpy.pi)
            case ast.Constant(value=int() | float() as number) if not isinstance(number, bool):
                return numpy.longdouble(number)
            case ast.BinOp(left=left, op=sign, right=right) | ast.Compare(left=left, ops=[sign], comparators=[right]) if type(sign) in OPERATORS:
                return OPERATORS[type(sign)](value(left, x), value(right, x))
            case ast.UnaryOp(op=sign, operand=operand) if type(sign) in OPERATORS:
                return OPERATORS[type(sign)](value(operand, x))
            case ast.Call(func=ast.Name(id=name), args=words, keywords=[]) if name in known:
                return known[name](*(value(word, x) for word in words))
        raise Refused(f"an expression has no '{shown(ast.unparse(node))}'", 2)

    try:
        tree = ast.parse(text, mode="eval")
        with numpy.errstate(all="ignore"):
            value(tree, numpy.ones(1, numpy.longdouble))
    except (SyntaxError, ValueError, TypeError, OverflowError, RecursionError, MemoryError) as fault:
        raise Refused(f"'{shown(text)}' is no expression of x: {shown(str(fault))}", 2) from None
    return lambda x: value(tree, x)


def change(sender, leaf, function, is_physical, numpy):
    """The changed file of a leaf's tile."""
    if sender.edits is None:
        sender.edits = sender.count()
    path = tile_path(sender.order, leaf)
    reply = sender.server.get(path, sender.tries)
    published = reply.number("Survey-Prefix")
    if published != sender.edits:
        raise Refused(f"of {sender.edits:,} edits {published or 0:,} are published, and the others may be of this leaf: first hipsctl publish")
    begin = cards_of(reply.body)[1]
    described = sender.described
    blank, scale, zero = int(described["survey_blank"]), *(numpy.longdouble(real(described[key], key)) for key in ("survey_bscale", "survey_bzero"))
    kind = numpy.dtype(TYPES[sender.size.bitpix])
    stored = numpy.frombuffer(reply.body, kind, sender.size.width**2, begin)
    is_there = stored != blank
    x = stored[is_there].astype(numpy.longdouble)
    with numpy.errstate(all="ignore"):
        got = numpy.broadcast_to(numpy.asarray(function(x * scale + zero if is_physical else x), numpy.longdouble), x.shape)
        got = numpy.rint((got - zero) / scale if is_physical else got)
    limits = numpy.iinfo(kind)
    for is_bad, fault in ((~numpy.isfinite(got), "are no numbers"), ((got < limits.min) | (got > limits.max), f"don't fit {limits.min} to {limits.max}"),
                          (got == blank, f"are {blank}, the number of blank pixels")):
        if is_bad.any():
            first = int(numpy.flatnonzero(is_bad)[0])
            raise Refused(f"{path}: {int(is_bad.sum()):,} results {fault}, as that of the stored number {int(x[first])}: nothing is sent")
    made = stored.copy()
    made[is_there] = got.astype(kind)
    units = f"physical values, {described['survey_bscale']} times the stored number plus {described['survey_bzero']}" if is_physical else "stored numbers"
    print(f"{path}: {int((made != stored).sum()):,} of {stored.size:,} pixels change, {int((~is_there).sum()):,} are blank and stay; x is in {units}")
    return reply.body[:begin] + made.tobytes() + reply.body[begin + made.nbytes :]
