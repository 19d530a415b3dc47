"""The theorems that the pages name. Each is stated: in a file that its paragraph or row names, if that names one; what docs/DEMAND-3.md names may stand in
`Theorems` and on the front page too. Of the table of demand 3 each theorem, up to a semicolon, is on the front page and there stated of an accepted plan;
after 'of any plan' it is there without that premise; and what it says, with the modules around it, is what the page's last section has of it, word by word.
And each theorem of the front page has its name on a page, so that none is lost unseen."""
import re

from contracts import bare, cut, tree

# A name with a hyphen is a theorem's; so is one in snake case that is nothing else: no definition, no function and no edit.
HYPHENED = re.compile(r"\w+(-[\w']+)+$")
SNAKE = re.compile(r"(?=.*[a-z])[A-Za-z0-9]+(_[A-Za-z0-9']+)+$")
DEMAND = 'docs/DEMAND-3.md'
FRONT = 'crates/promises/specs/'
STRATEGY = 'crates/strategy/proofs/'
ANY = 'of any plan,'

# What demand 3 cannot be without.
LEAST = {'settled-means', 'no-strategy-means', 'offer-not-empty', 'offer-exact', 'step-effect', 'on-offer-taken', 'inside-final', 'no-run-missing', 'all-kept'}


def coded(text):
    """What stands in code letters."""
    return re.findall(r'`([^`\n]+)`', text)


def is_theorem(name, others):
    """Whether a name is a theorem's, where `others` are names of other things."""
    return bool(HYPHENED.match(name) or SNAKE.match(name) and name not in others)


def bared(text):
    """A text without what stands between `{-` and `-}`."""
    return re.sub(r'\{-.*?-\}', '', text, flags=re.S)


def stated(text):
    """The theorems of a file, each with its statement and the heads of the modules around it. The fields of a record are none."""
    found, modules, record, lines = {}, [], None, bared(text).split('\n')
    for at, line in enumerate(lines):
        indent = len(line) - len(line.lstrip())
        if line.strip() and not line.strip().startswith('--'):
            modules = [one for one in modules if one[0] < indent]
            record = record if record is not None and record < indent else None
        if re.match(r' *(pub )?record .* where$', line):
            record = indent
        module = re.match(r' *module \S+ (.*) where$', line)
        if module:
            modules.append((indent, module.group(1)))
        law = re.match(r" *pub ([\w'-]+)(?: \{[^}]*\})? :(?: (.*))?$", line)
        if law and record is None:
            said = [law.group(2) or '']
            for after in lines[at + 1:]:
                if after.startswith(' ' * indent + law.group(1)) or re.match(r' *unfolding\b', after) or not after.strip():
                    break
                said.append(after.strip())
            found[law.group(1)] = (' '.join(said), [head for _, head in modules])
    return found


def front(read):
    """The files of the front page: those that its list has below the laws."""
    return [FRONT + name + '.antt' for name in re.findall(r'(?m)^pub mod (\w+)', bared(read(FRONT + 'Lib.antt')).partition('-- ---- laws')[2])]


def is_of_accepted(said, heads):
    """Whether a theorem is stated of an accepted plan: a module around it takes one, or a premise is that the plan is."""
    premises = [tree(head) or [] for head in heads] + cut(tree(said) or [], '→')[:-1]
    takes = [part for premise in premises for part in [bare(premise)] + premise]
    plans = [part[-1] for part in takes if part[-2:-1] == ['Accepted'] and (len(part) == 2 or part[1:-2] == [':'])]
    return any(re.search(r"(?<![\w.])%s(?![\w'])" % plan, said) for plan in plans)


def blocks(page):
    """The paragraphs, list items and rows of a page."""
    return re.split(r'\n\s*\n|\n(?=[-|]|\d+\. )', page)


def definitions(text, is_page):
    """The definitions of a file; of one that has no laws, `is_page`, all that is public."""
    kinds = r'(?:(?:abbrev|unfoldable)(?: pub)?|pub)' if is_page else r'(?:abbrev|unfoldable)(?: pub)?'
    return set(re.findall(r"(?m)^ *%s ([\w'-]+)(?: \{[^}]*\})? :" % kinds, bared(text)))


def named(block, exists, others):
    """The theorems that a block names, and the files of laws that it names; a file of the crate `strategy` goes by its name alone."""
    names, files = [], []
    for code in coded(block):
        short = STRATEGY + (code if code.endswith('.antt') else code + '.antt')
        if code.endswith('.antt') and exists(code):
            files.append(code)
        elif re.fullmatch(r'[A-Z]\w+(\.antt)?', code) and exists(short):
            files.append(short)
        elif is_theorem(code, others):
            names.append(code)
    return names, files


def section(page, number):
    """A section of a page by its number."""
    return (re.split(r'(?m)^## %d\. ' % number, page) + [''])[1].split('\n## ')[0]


def demanded(page):
    """The theorems of the table of demand 3, each with whether it is to be stated of an accepted plan: after 'of any plan' it is not."""
    table = [line.strip('| ').split(' | ') for line in section(page, 2).split('\n') if re.match(r'\| (?!the demand)', line)]
    parts = [(at, part.strip()) for row in table for at, part in enumerate(row[-1].split(';'))]
    return [(name, not part.startswith(ANY)) for at, part in parts if at == 0 or part.startswith(ANY) for name in coded(part)]


def whole(page):
    """What the last section of a page has of each theorem: its name, and below it the heads of the modules around it and the statement."""
    found, name = {}, None
    for line in section(page, 6).split('\n'):
        if re.match(r' {4}\S+$', line):
            name = line.strip()
            found[name] = ''
        elif name and re.match(r' {8}', line):
            found[name] += ' ' + line.strip()
    return {name: ' '.join(said.split()) for name, said in found.items()}


def faults(read, exists, every, pages, apart, others):
    """What is wrong: `every` are all files of specs/, `pages` the texts of the pages, `apart` the files of the front page whose laws are looked up by
    operation, and `others` the names of other things than theorems."""
    texts = {path: stated(read(path)) for path in every}
    shown = front(read)
    known = set()
    for page, text in pages.items():
        always = [STRATEGY + 'Theorems.antt'] + shown if page == DEMAND else []
        for block in blocks(text):
            names, files = named(block, exists, others)
            known |= set(names)
            within = files + always or every
            yield from ('%s: the theorem `%s` is not stated%s' % (page, name, ' in ' + ', '.join(files) if files else '')
                        for name in names if not any(name in texts.get(path, {}) for path in within))
    laws = {name: said for path in shown for name, said in texts.get(path, {}).items()}
    said = whole(pages[DEMAND])
    if not demanded(pages[DEMAND]):
        yield '%s: section 2 has no table of theorems' % DEMAND
    for name, of_accepted in demanded(pages[DEMAND]):
        if name not in laws:
            yield '%s: the theorem `%s` is not on the front page' % (DEMAND, name)
        elif of_accepted and not is_of_accepted(*laws[name]):
            yield '%s: on the front page `%s` is not stated of an accepted plan' % (DEMAND, name)
        elif said.get(name) != ' '.join(' '.join(laws[name][1] + [laws[name][0]]).split()):
            yield '%s: section 6 does not have `%s` as the front page states it' % (DEMAND, name)
    yield from ('%s: the table of theorems has no `%s`' % (DEMAND, name) for name in sorted(LEAST - {name for name, _ in demanded(pages[DEMAND])}))
    for path in shown:
        if path not in apart:
            yield from ('%s: the theorem `%s` is named on no page' % (path, name) for name in texts.get(path, {}) if name not in known)
