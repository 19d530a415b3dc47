"""What a contract says. A promise determines its answer where it is an equation of the answer with a definition: one side is the result, a field
of it, or what a lent slice holds at the exit, and the other is a definition of what came in. A few named forms say the same of two things at once."""
import re

# What an `ensures` may say to determine something. In a form R is the result, X a parameter that is lent to be written, of which X.old is what it holds as the
# call begins and X.new what it holds at the return, .F a field, .G one of a lent structure; T is a term of what came in, and D one whose first word is a
# definition that the function's row of docs/PROMISES.md names, or the length or a field of one, or a field of a parameter. With each stands the law by which
# it determines R and X, and the law's file; a form without a law leaves something open, and is for the operations which the page's table of exceptions names.
ONLY = ('only', 'crates/text/specs/Unique.antt')
FORMS = (
    ('R ≡ D', ONLY),
    ('R.F ≡ D', ONLY),
    ('R.now ≡ D', ONLY),
    ('R.F.now ≡ D', ONLY),
    ('X.new ≡ D', ONLY),
    # what a writer leaves in a slice, and the place behind it
    ('Stored X.old T T X.new R', ('stored-unique', 'crates/text/specs/Unique.antt')),
    ('X.new.G ≡ D', ONLY),
    # whether there is a contradiction, and each weight: a record of the two
    ('flat (is_err R) X.new.G ≡ D', ('put-unique', 'crates/promises/specs/Uniqueness.antt')),
    # whether there is a contradiction, and else the weights of the nodes that remain
    ('set_in T (is_err R) X.new.G ≡ D', None),
    # the times of the nodes of two windows
    ('TimesHeld T R.early R.late', None),
    # what a text at its beginning holds is what the input has given since
    ('Consumes (I.remaining X.old) (I.remaining X.new) (take R X.new)', None),
    # what refuses a text: its refusal, and the bytes of its faulty line
    ('part_told R ≡ D', ONLY),
    # the joined table where a plan is settled
    ('SettledOn T (rows_of T X.new.G)', None),
)

# A premise that may stand before a form, and what the function's `requires` must then say: that there is such a plan.
GIVEN = {'TableHeldFor': 'TableHeld'}

# The type of an answer that is known where it is known whether it is an error.
TOLD_BY_ERROR = 'Result<(), Contradiction>'

# Words of a term that are no names: what is counted, joined or put in front of a list. Every other sign could make an equation a part of something weaker.
SIGNS = {'+', '-', '*', '^', '++', '∷', '[]', '+ℤ', '&&'}
NAME = re.compile(r"[\w'«»][\w'«».-]*$|\.\w+$")

# What a clause calls the answer, and the words behind a value that are no fields of it: what a reference points to, and a parameter before and after the call.
RESULT = 'result'
STATES = {'.now', '.old', '.new', '.entry', '.exit'}


def tree(text, values=()):
    """A term as the list of its words, with a list for what stands in parentheses; None where they do not match. What stands tight behind a closed
    parenthesis or one of some values, as in (f x).seen and out.old, makes a list with it: a part of that value."""
    opened, closed_at = [[]], None
    for found in re.finditer(r'[(){}]|[^\s(){}]+', text):
        word = found.group()
        if word in '({':
            opened[-1].append([])
            opened.append(opened[-1][-1])
        elif word in ')}':
            if len(opened) == 1:
                return None
            opened.pop()
            closed_at = found.end()
        elif re.match(r'\.\w', word):
            if found.start() != closed_at:
                return None
            opened[-1][-1] = [opened[-1][-1]] + parts_of(word)
        else:
            base = re.match(r"[^.]*", word).group()
            is_part = base.strip('«»') in values and re.match(r'\.\w', word[len(base):])
            opened[-1].append([base] + parts_of(word[len(base):]) if is_part else word)
    return opened[0] if len(opened) == 1 else None


def parts_of(word):
    """The fields that a word has behind a value."""
    return ['.' + name for name in word.split('.')[1:]]


def is_part(term):
    """Whether a term is a part of a value."""
    return len(term) > 1 and all(isinstance(one, str) and one.startswith('.') for one in term[1:])


def words(term):
    """All words of a term."""
    return [word for part in term for word in (words(part) if isinstance(part, list) else [part])]


def cut(term, sign):
    """A term cut at a sign, where that stands in no parentheses."""
    parts = [[]]
    for word in term:
        if word == sign:
            parts.append([])
        else:
            parts[-1].append(word)
    return parts


def bare(term):
    """A term without parentheses around the whole of it."""
    while isinstance(term, list) and len(term) == 1 and isinstance(term[0], list):
        term = term[0]
    return term


def conjuncts(term):
    """The parts of a term that says several things, each in parentheses; any other term is one part."""
    term = bare(term)
    if len(term) % 2 and all(isinstance(part, list) for part in term[::2]) and all(sign == '×' for sign in term[1::2]):
        return term[::2]
    return [term]


def plain(word):
    """A name without the module before it."""
    return word if word.startswith('.') else word.split('.')[-1]


def split_at(text, sign):
    """A text cut at a sign outside of all brackets; an arrow closes none."""
    parts, depth = [''], 0
    for at, letter in enumerate(text):
        depth += (letter in '([{<') - (letter in ')]}' or letter == '>' and text[at - 1] != '-')
        if letter == sign and depth == 0:
            parts.append('')
        else:
            parts[-1] += letter
    return [part.strip() for part in parts if part.strip()]


class Contract:
    """A function's parameters, those of them that are lent to be written and their types, its result type, and its clauses as terms. What is not understood is
    told."""

    def __init__(self, text):
        self.unread = []
        head, *clauses = re.split(r'(?m)^\s*(?=(?:requires|ensures|ghost)\b)', text)
        inside, depth = '', 0
        rest = head[head.index('(', head.index('fn ')):]
        for at, letter in enumerate(rest):
            depth += (letter == '(') - (letter == ')')
            if depth == 0:
                inside, rest = rest[1:at], rest[at + 1:]
                break
        self.parameters, self.lent, self.kinds = [], [], {}
        for part in split_at(inside, ','):
            name, _, of = part.partition(':')
            if re.match(r"&('\w+ )?mut self$", part):
                name, of = 'self', '&mut Self'
            name = re.sub(r'^mut ', '', name.strip()).lstrip('&')
            self.parameters.append(name)
            lends = re.match(r"\s*&('\w+ )?mut\b(.*)", of)
            if lends:
                self.lent.append(name)
                self.kinds[name] = lends.group(2).strip()
            if re.search(r"&('\w+ )?mut\b", lends.group(2) if lends else of):
                self.unread.append('what `%s` lends inside' % name)
        self.type = rest.split('->')[1].strip().rstrip('{').strip() if '->' in rest else None
        if self.type and re.search(r"&('\w+ )?mut\b", self.type):
            self.unread.append('a result that lends')
        if RESULT in self.parameters:
            self.unread.append('a parameter `%s`' % RESULT)
        self.requires, self.ensures = [], []
        for clause in clauses:
            said = re.fullmatch(r'(requires|ensures)(?:\s+[a-z]\w*)?\s*\{(.*)\}\s*', clause, re.S)
            plan = re.match(r"\s*\((\w[\w']*) : Plan\) →", said.group(2)) if said else None
            term = tree(said.group(2), {name.strip('«»') for name in self.parameters} | {RESULT} | ({plan.group(1)} if plan else set())) if said else None
            if term is None:
                self.unread.append('`%s`' % ' '.join(clause.split()))
            else:
                (self.ensures if said.group(1) == 'ensures' else self.requires).append(term)


def closed(term, contract):
    """Whether a term is one of what came in: no result, of a lent parameter what it held as the call began, and no sign that could weaken what stands around
    it."""
    every = words(term)
    return (bool(every) and not {RESULT, '.new', '.exit'} & set(every) and all(word in SIGNS or NAME.match(word) for word in every)
            and not set(words(lifted(term, contract))) & set(contract.lent))


def lifted(term, contract):
    """A term without what lent parameters held as the call began."""
    return [lifted(part, contract) if isinstance(part, list) else part
            for part in term if not (isinstance(part, list) and len(part) > 1 and part[0] in contract.lent and part[1] == '.old')]


def matches(form, term, contract):
    """What a form says of a term, as a list of what it determines: `''` for the result, `.field`, or the name of a lent parameter; None where it is not of the
    form."""
    if form == 'T':
        return [] if closed([term], contract) else None
    if isinstance(form, str) or isinstance(term, str):
        if form == 'R' and term == RESULT:
            return ['']
        if form == 'X' and term in contract.lent:
            return [term]
        if form == '.F' and isinstance(term, str) and term.startswith('.') and term not in STATES:
            return [term]
        return [] if form == term else None
    if len(form) != len(term):
        return None
    if form == ['X', '.old']:
        return [] if term[0] in contract.lent and term[1] == '.old' else None
    if form == ['X', '.new', '.G']:
        return [term[0] + term[2]] if term[0] in contract.lent and term[1] == '.new' and term[2] not in STATES else None
    found = [matches(part, piece, contract) for part, piece in zip(form, term)]
    return None if None in found else [one for part in found for one in part]


def equation(form, term, contract, defined):
    """The same of an equation, whose right side begins with a definition, or of a predicate that is one."""
    sides, forms = cut(term, '≡'), cut(form, '≡')
    if len(sides) != len(forms):
        return None
    right = bare(sides[-1])
    if len(forms) == 2:
        counted = bare(right[1]) if right[:1] == ['length'] and len(right) == 2 and isinstance(right[1], list) else right
        if is_part(counted) and isinstance(counted[0], list):
            counted = bare(counted[0])
        head = counted[0] if counted and isinstance(counted[0], str) else ''
        is_own = is_part(right) and right[0] in contract.parameters
        if not is_own and (plain(head) not in defined or head in contract.parameters) or not closed(right, contract):
            return None
    elif plain(forms[0][0]) not in defined:
        return None
    found = matches(forms[0], sides[0], contract)
    if found and any(one.startswith('.') for one in found):
        return [one for one in found if one]
    return found


def stripped(term, contract):
    """A clause without the plan that it speaks of, where it speaks of every one, and without a premise that the `requires` grants."""
    term = bare(term)
    if len(term) > 2 and isinstance(term[0], list) and term[0][1:] == [':', 'Plan'] and term[1] == '→' and term[0][0] not in [RESULT] + contract.parameters:
        plan, parts = term[0][0], cut(term[2:], '→')
        premise = parts[0]
        if len(parts) == 2 and len(premise) > 1 and isinstance(premise[0], str) and premise[0] in GIVEN and premise[1] == plan:
            granted = [GIVEN[premise[0]]] + premise[2:]
            return parts[1] if granted in [bare(one) for one in contract.requires] else term
        return parts[0] if len(parts) == 1 else term
    return term


def told(contract, defined):
    """Of each part of each `ensures`: its term, the form that it has and what it determines; the form is None where it determines nothing."""
    for term in contract.ensures:
        for part in conjuncts(term):
            part = stripped(part, contract)
            for form, law in FORMS:
                if '(is_err R)' in form and contract.type != TOLD_BY_ERROR:
                    continue
                found = equation(tree(form, {'R', 'X'}), part, contract, defined)
                if found is not None:
                    yield part, form, law, found
                    break
            else:
                yield part, None, None, []


def fields(sources, kind):
    """The fields of a structure, or None where there is none of that name."""
    found = re.search(r'(?m)^(?:pub )?struct %s\b(?:<[^>]*>)?\s*(?:\(([^)]*)\)|\{(.*?)^\})' % re.escape(kind), sources, re.S | re.M)
    if not found:
        return None
    if found.group(1) is not None:
        return ['.%d' % at for at in range(len(split_at(found.group(1), ',')))]
    return ['.' + name for name in re.findall(r'(?m)^\s+(?:pub )?(\w+):', found.group(2))]


def undetermined(contract, defined, sources, is_excepted, owner=None):
    """What a contract leaves open; `Self` is the type whose function it is, or None."""
    yield from ('%s is not understood' % one for one in contract.unread)
    found, heads = set(), set()
    for part, form, law, said in told(contract, defined):
        if form and (law or is_excepted):
            found |= set(said)
            heads |= {plain(word) for word in words(part)}
    spoken = heads | {word for term in contract.requires for word in words(term)}
    if contract.type not in (None, '()') and '' not in found:
        own = fields(sources, contract.type.split('<')[0])
        if not own or set(own) - found:
            yield 'the result' if not own or not found & set(own) else 'of the result %s' % ', '.join(sorted(set(own) - found))
    for name, kind in contract.kinds.items():
        own = fields(sources, owner if kind == 'Self' and owner else kind)
        if name not in found and not (own and all(name + field in found for field in own)):
            yield '`%s` at the exit' % name
    yield from ('`%s`, which determines nothing' % name for name in sorted(set(defined) - heads))
    yield from ('what `%s` has to do with it' % name for name in contract.parameters if not spoken & {name, '«%s»' % name})


# ---- the laws of uniqueness, and what they say of a contract


def statement(text, name):
    """What a law of a file says, and the names that it and the modules of the file bind; (None, ..) where there is no such law."""
    found = re.search(r'(?ms)^( *)pub %s(?: \{[^}]*\})? :(.*?)^\1(?:unfolding\b|%s(?![\w\'-]))' % (re.escape(name), re.escape(name)), text)
    heads = ' '.join(re.findall(r'(?m)^ *module _ (.*) where$', text))
    names = bound(tree(heads) + (tree(found.group(2)) if found else []))
    return (tree(found.group(2), names) if found else None), names


def bound(term):
    """The names that a term binds, as `x` and `y` in (x y : A)."""
    names = set()
    for part in term:
        if isinstance(part, list):
            names |= set(part[:part.index(':')]) if ':' in part and all(isinstance(one, str) for one in part[:part.index(':')]) else bound(part)
    return names


def held(term):
    """A term without `.now`: a law speaks of lists, and a contract of what a reference points to."""
    parts = [held(part) if isinstance(part, list) else part for part in term if part != '.now']
    return parts[0] if len(parts) == 1 else parts


def fits(pattern, term, names, taken):
    """Whether a term is what a law speaks of, with the law's names for parts of it."""
    if isinstance(pattern, str) and pattern in names:
        return taken.setdefault(pattern, term) == term
    if isinstance(pattern, str) or isinstance(term, str):
        return isinstance(pattern, str) and isinstance(term, str) and plain(pattern) == plain(term)
    return len(pattern) == len(term) and all(fits(one, other, names, taken) for one, other in zip(pattern, term))


def says(law, names, part, parameters):
    """Whether a premise of a law is a part of a contract: each name of the law stands for something that came in or for the answer, and a name that is also a
    parameter's for that parameter."""
    for premise in cut(law, '→')[:-1]:
        for piece in conjuncts(premise):
            sides, others = cut(bare(piece), '≡'), cut(part, '≡')
            taken = {}
            if len(sides) == len(others) and all(fits(held(bare(one)), held(bare(other)), names, taken) for one, other in zip(sides, others)):
                spoken = {name: {plain(word).strip('«»') for word in words([term])} for name, term in taken.items()}
                if all(said & ({name} if name in parameters else parameters | {RESULT}) for name, said in spoken.items()):
                    return True
    return False


def unsaid(contract, defined, laws):
    """The parts of a contract that determine something and of which no law of uniqueness speaks; each law is its statement and its names."""
    every = [bare(term)[0][0] for term in contract.ensures if isinstance(bare(term)[0], list) and bare(term)[0][1:] == [':', 'Plan']]
    parameters = {name.strip('«»') for name in contract.parameters + every}
    for part, form, law, _ in told(contract, defined):
        if form and law and not any(says(one, names, part, parameters) for one, names in laws if one):
            yield '`%s`' % shown(part)


def shown(term):
    """A term as it is written."""
    return ' '.join(part if isinstance(part, str) else tight(part) if is_part(part) else '(%s)' % shown(part) for part in term)


def tight(term):
    """A part of a value as it is written."""
    return (term[0] if isinstance(term[0], str) else '(%s)' % shown(term[0])) + ''.join(term[1:])
