"""Where a text stops being a program, and why.

The library tells the token at which reading stops, which in an assignment to no target is the target's first. Elsewhere
and without it, the program is asked which parts of the text it reads: the text is cut off behind one token after the
other, at brackets that stand within each other from the outside to the inside, and each cut is closed by something
simple. The place is the first token behind the longest cut that is read.
"""
import bisect

from parts import scan

# What may close a text that was cut off.
ENDS = (
    "", " x", "{}", "(x)", "(){}", ": x", " x{}", ";", "=x", " from 'x'",
    " x;", "(x){}", "(;;){}", " x(){}", " x=x", " x:", ":", " x:x", " 'x'", " x from 'x'", " of x", " in x", ";;", "=x;;", "=>x",
    "{}catch{}", "catch{}", "{}while(x)", " while(x)",
)
LONG = 50_000  # characters, above which only the first ten are tried
INSIDE = ("", "x", ";;", "x of x")
MOST_SHELLS = 3  # of which each is tried
# Words with which a statement goes on behind a }.
GOES_ON = frozenset("else catch finally while in instanceof of as satisfies from extends implements".split())
# In longer texts no place is looked for: the program would be asked for minutes.
MOST_SEARCHED = 1_000_000
# How far it is looked for what tells that reading may go on where it stopped.
MOST_LOOKED = 60
ASSIGNS = ("=", "=>", "++", "--", "+=", "-=", "*=", "/=", "%=", "**=", "<<=", ">>=", ">>>=", "&=", "|=", "^=", "&&=", "||=", "??=")
MOST_ASKED = 6_000_000  # bytes of all texts of one question
MOST_ROUNDS = 200
DEEP = 90  # brackets within each other, from which the depth of 500 nodes is likely the reason

LEXICAL = {
    "UnterminatedString": "this string literal doesn't end on its line",
    "UnterminatedComment": "this comment doesn't end",
    "UnterminatedTemplate": "this template literal doesn't end",
    "Unbalanced": "this bracket has no partner",
}


class Search:
    """The search in one text."""

    def __init__(self, text, are_read):
        self.text = text
        self.are_read = are_read  # of a list of texts which are programs
        self.scan = scan.Scan(text)
        self.tokens = self.scan.tokens
        self.rounds = 0
        self.inside = set()  # tokens at which no statement begins, as was found out

    def ask(self, texts):
        """Of each text whether it is read; asked in parts that aren't too large."""
        found, part, size = [], [], 0
        for text in texts:
            if part and size + len(text) > MOST_ASKED:
                found += self.are_read(part)
                part, size = [], 0
            part.append(text)
            size += len(text)
        self.rounds += 1
        return found + (self.are_read(part) if part else [])

    def viable(self, head, tails, cuts):
        """Of each cut (a place in the text, from head's end on) the first end that makes a program of it, or None."""
        start, front = head
        most = 10 if cuts and len(front) + cuts[-1] - start > LONG else len(ENDS)
        ends = [end + tail for tail in tails for end in ENDS[:most]]
        texts = [front + self.text[start:cut] + end for cut in cuts for end in ends]
        answers = self.ask(texts)
        made = []
        for number in range(len(cuts)):
            row = answers[number * len(ends):(number + 1) * len(ends)]
            made.append(ends[row.index(True)] if True in row else None)
        return made

    def place(self):
        """The number of the first token that no reading takes; as many as there are tokens where it is the end."""
        first, last = 0, len(self.tokens)
        head, tails = (0, ""), ("",)
        while self.rounds < MOST_ROUNDS:
            good, head = self.longest(head, tails, first, last)
            if good >= last:
                return good
            token = self.tokens[good]
            closer = token.mate
            if closer is None or closer <= good or closer > last:
                return good
            # does what the brackets hold matter?
            shells = self.shells(head, tails, good, closer)
            if not shells:
                return good
            head, tails = (token.end, head[1] + self.text[head[0]:token.end]), tuple(shells)
            first, last = good + 1, closer
        return first

    def shells(self, head, tails, good, closer):
        """What may close the text behind a pair of brackets that holds something simple, the shortest first."""
        opener, inner = self.tokens[good], self.tokens[closer]
        close = "}`" if inner.kind in ("middle", "tail") else inner.text
        ends = [end + tail for tail in tails for end in ENDS]
        front = head[1] + self.text[head[0]:opener.end]
        answers = self.ask([front + inside + close + end for inside in INSIDE for end in ends])
        fitting = {ends[number % len(ends)] for number, answer in enumerate(answers) if answer}
        return [close + end for end in sorted(fitting, key=lambda end: (len(end), end))[:MOST_SHELLS]]

    def longest(self, head, tails, first, last):
        """The greatest number of a token up to which the part is read, and what stands in front of the part then."""
        outer = self.outer(first, last)
        low, high = 0, len(outer) - 1
        while True:
            low, high = self.halved(head, tails, outer, low, high)
            head = (self.start_of(outer[low]), head[1]) if low else head
            numbers = outer[low:high + 1]
            good = self.last_viable(head, tails, numbers)
            if good < len(numbers) - 1 or high == len(outer) - 1 or self.rounds > MOST_ROUNDS:
                return numbers[good], head
            self.inside.add(outer[high])  # that cut fell inside a statement
            high = len(outer) - 1

    def last_viable(self, head, tails, numbers):
        """The greatest index of a token up to which the part can be closed; the texts before a good cut are good too."""
        low, high = 0, len(numbers)
        length = max(1, self.start_of(numbers[-1]) - head[0] + len(head[1]))
        while high - low > 1:
            inside = range(low + 1, high)
            count = max(1, min(len(inside), MOST_ASKED // (length * len(ENDS) * len(tails))))
            picked = sorted({inside[len(inside) * number // count] for number in range(count)} | {inside[len(inside) // 2]})
            made = self.viable(head, tails, [self.start_of(numbers[at]) for at in picked])
            good = [at for at, end in zip(picked, made) if end is not None]
            if good:
                low = good[-1]
            bad = [at for at in picked if at > low]
            high = min([high, *bad])
        return low

    def halved(self, head, tails, outer, low, high):
        """Two indices of outer between which reading stops: halves of the statements are asked one by one, without those
        before them."""
        is_switch = any(number < len(self.tokens) and self.tokens[number].is_word("case") for number in outer)
        has_end = any(number < len(self.tokens) and self.tokens[number].is_sign(";") for number in outer)
        front = head[1]
        while high - low > 1:
            inside = [at for at in range(low + 1, high) if self.begins(outer[at], is_switch, has_end)]
            if not inside:
                break
            start, end = self.start_of(outer[low]) if low else head[0], self.start_of(outer[high])
            middle = min(inside, key=lambda at: abs(self.start_of(outer[at]) - (start + end) // 2))
            if any(self.ask([front + self.text[start:self.start_of(outer[middle])] + tail for tail in tails])):
                low = middle
            else:
                high = middle
            if self.rounds > MOST_ROUNDS:
                break
        return low, high

    def begins(self, number, is_switch, has_end):
        """Whether a statement, a member or an item begins at a token, so that what stands before can be left out."""
        token, before = self.tokens[number], self.tokens[number - 1]
        if number in self.inside:
            return False
        if is_switch:
            return token.is_word("case", "default")
        if before.is_sign(","):
            return not has_end
        if not before.is_sign(";", "}") or token.is_word(*GOES_ON):
            return False
        return token.kind in ("word", "string") or token.is_sign("{", "(", "[", "@", "*", ";", "#")

    def outer(self, first, last):
        """The tokens of a part that stand in no brackets of it, and its end."""
        found, number = [], first
        while number < last:
            found.append(number)
            mate = self.tokens[number].mate
            number = mate + 1 if mate is not None and number < mate <= last else number + 1
        return found + [last]

    def stopped(self, stop):
        """The number of the token at which reading stopped, or None where it may go on there, and that can be found out: before an
        assignment, and behind a type in front of an expression."""
        number = bisect.bisect_left([token.start for token in self.tokens], stop)
        may_go_on = self.may_be_assigned(number) or self.is_behind_type(number)
        return None if may_go_on and len(self.text) <= MOST_SEARCHED else number

    def may_be_assigned(self, number):
        """Whether a token may begin what is assigned to."""
        at, last = number, min(len(self.tokens), number + MOST_LOOKED)
        if at < last and self.tokens[at].kind == "sign" and self.tokens[at].mate is None:
            return False
        while at < last and not self.tokens[at].is_sign(";", ")", "]", "}"):
            token = self.tokens[at]
            if token.is_sign(*ASSIGNS) or token.is_word("of", "in"):
                return True
            at = token.mate + 1 if token.mate is not None and token.mate > at else at + 1
        return False

    def is_behind_type(self, number):
        before = self.tokens[max(0, number - MOST_LOOKED):number + 1]
        return any(token.is_sign("<") and not token.was_operand for token in before)

    def start_of(self, number):
        return self.tokens[number].start if number < len(self.tokens) else len(self.text)


def jsx_at(scanned, specifier, until=None):
    """The first token that opens a tag of JSX, as far as that can be seen without reading, or None."""
    path = specifier.split("?")[0].lower()
    if path.endswith((".ts", ".mts", ".cts")):
        return None
    tokens = scanned.tokens
    for number, token in enumerate(tokens[:-1]):
        if until is not None and token.start >= until:
            return None
        behind = tokens[number + 1]
        if token.is_sign("<") and not token.was_operand and behind.start == token.end and (behind.kind == "word" or behind.is_sign(">")):
            if path.endswith((".tsx",)) and number and tokens[number - 1].is_sign("=", ",", "(") and is_generic_arrow(tokens, number):
                continue
            return number
    return None


def is_generic_arrow(tokens, number):
    """Whether <T,>(..) or <T extends ..>(..) opens here."""
    behind = tokens[number + 2] if number + 2 < len(tokens) else None
    return behind is not None and (behind.is_sign(",") or behind.is_word("extends"))


def depth_of(tokens):
    """How many brackets stand within each other."""
    depth = most = 0
    for number, token in enumerate(tokens):
        if token.mate is not None:
            depth += 1 if token.mate > number else -1
            most = max(most, depth)
    return most


LEFT_OUT = "a form of the language that this project doesn't read"


def reason_at(search, number, specifier):
    """One sentence on the token at which reading stops."""
    tokens = search.tokens
    if number >= len(tokens):
        return "the text ends in the middle of something"
    token = tokens[number]
    before = tokens[number - 1] if number else None
    behind = tokens[number + 1] if number + 1 < len(tokens) else None
    typed = specifier.split("?")[0].lower().endswith((".ts", ".mts", ".cts", ".tsx"))
    if token.is_sign("@"):
        return f"a decorator, {LEFT_OUT}"
    form = form_left_out(tokens, number, typed)
    if form:
        return form
    if token.is_sign("<") and not token.was_operand:
        if typed and not specifier.lower().endswith(".tsx"):
            return "<T>x, a type in front of an expression, is read with --all-forms alone: write x as T"
        return f"JSX, {LEFT_OUT}"
    if token.is_sign("/", "/=") and before is not None and before.is_sign("}"):
        return f"a regular expression right after }}, {LEFT_OUT}: put a ; in front"
    for one in (token, before):
        if one is not None and one.is_word("let", "await", "yield") and not (one is before and token.kind in ("word", "string", "number")):
            return f"'{one.text}' isn't read as a name here, though in some places the language has it as one"
    if depth_of(tokens) > DEEP:
        return f"it may be nested too deep: more than 500 nodes on a path, {LEFT_OUT}"
    if token.is_word("import", "export") and specifier.split("?")[0].lower().endswith(".cjs"):
        return f"unexpected '{token.text}': a .cjs file is read as a script"
    if not typed and is_of_types(token, before):
        return f"unexpected '{shortened(token.text)}': types are read only in TypeScript files"
    if behind is None:
        return f"unexpected '{shortened(token.text)}' at the end of the text"
    return f"unexpected '{shortened(token.text)}'"


def form_left_out(tokens, number, typed):
    """A sentence on a rarer form that this project leaves out, as its tokens show it, or None."""
    def text_at(at):
        return tokens[at].text if 0 <= at < len(tokens) else ""

    around = [text_at(number + step) for step in range(-2, 4)]
    two, one, here, next1, next2, next3 = around
    if here == "<" and next1 == "!" and next2 == "--" and tokens[number].end == tokens[number + 1].start:
        return f"a comment of HTML, {LEFT_OUT}"
    if here == ">" and one == "--" and tokens[number - 1].line_before:
        return f"a comment of HTML, {LEFT_OUT}"
    if here == "assert" and number and tokens[number - 1].kind == "string":
        return f"attributes with assert, {LEFT_OUT}: write with"
    if typed and here == "extends" and (two == "infer" or any(text_at(at) == "infer" and text_at(at + 2) == "extends" for at in range(number, number + 60))):
        return f"a condition of infer, {LEFT_OUT}"
    if typed and here == "import" and next1 == "(" and next3 == ",":
        return f"attributes of an import type, {LEFT_OUT}"
    if typed and one == "as" and two == "type":
        return f"'as' after type in braces, {LEFT_OUT}"
    if typed and one == ">" and here in (";", ",", ")", "]", "}", "?.") and sign_in_statement(tokens, number, "<"):
        return f"type arguments of an expression that isn't called at once, {LEFT_OUT}"
    return None


def is_of_types(token, before):
    """Whether a token is one that only TypeScript has there."""
    words = ("interface", "enum", "namespace", "declare", "abstract", "type")
    return token.is_sign(":") or token.is_word("as", "satisfies", *words) or (token.kind == "word" and before is not None and before.is_word(*words))


def shortened(text, most=30):
    text = " ".join(text.split())
    return text if len(text) <= most else text[:most - 2] + ".."


def fault_of(text, specifier, are_read, stop=None):
    """The place (a character, from 0) where a text stops being a program, how many characters it has, and a sentence. stop is
    the character of the token at which reading stops, where that is known."""
    search = Search(text, are_read)
    fault = search.scan.fault
    if fault:
        jsx = jsx_at(search.scan, specifier, fault[1])
        if jsx is not None:
            token = search.tokens[jsx]
            return token.start, 1, f"JSX, {LEFT_OUT}"
        what, at = fault
        return at, 1, LEXICAL[what]
    number = None if stop is None else search.stopped(stop)
    if number is None:
        number = search.place()
    token = search.tokens[number] if number < len(search.tokens) else None
    reason = reason_at(search, number, specifier)
    if token is None:
        return len(text), 1, reason
    return token.start, max(1, token.end - token.start), reason


def sign_in_statement(tokens, number, sign):
    """Whether a sign stands before a token, in the same statement or list."""
    at = number - 1
    while at >= 0 and not tokens[at].is_sign(";", "{", "}"):
        if tokens[at].is_sign(sign):
            return True
        at -= 1
    return False
