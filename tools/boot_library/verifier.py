"""Types the methods of an assembler text as section 4.10.1 of the JVM Specification has it, for the instructions that the
boot library uses, and tells the most stack and the locals that each takes and which classes a verifier would ask about."""
import re

MNEMONICS = {
    'iconst_m1': ('', 'I'), 'lconst_0': ('', 'J'), 'bipush': ('', 'I'), 'sipush': ('', 'I'), 'ldc2_w': ('', 'J'),
    'arraylength': ('A', 'I'), 'caload': ('AI', 'I'), 'castore': ('AII', ''),
    'i2l': ('I', 'J'), 'l2i': ('J', 'I'), 'i2c': ('I', 'I'), 'ineg': ('I', 'I'), 'lneg': ('J', 'J'),
    'lcmp': ('JJ', 'I'), 'lushr': ('JI', 'J'), 'iushr': ('II', 'I'), 'iinc': ('', ''),
}
for i in range(6):
    MNEMONICS['iconst_%d' % i] = ('', 'I')
for name in 'add sub mul div rem and or xor'.split():
    MNEMONICS['i' + name] = ('II', 'I')
    MNEMONICS['l' + name] = ('JJ', 'J')
for name in 'eq ne lt ge gt le'.split():
    MNEMONICS['if' + name] = ('I', '')
    MNEMONICS['if_icmp' + name] = ('II', '')
LETTERS = {'i': 'I', 'l': 'J', 'a': 'A'}
ENDS = ('goto', 'athrow', 'return', 'ireturn', 'lreturn', 'areturn', 'lookupswitch')


class Fault(Exception):
    pass


def types_of(desc):
    """The verification types of the parameters of a descriptor, and that of its result, '' for none."""
    def one(text):
        if text[0] in 'ZBCSI':
            return 'I'
        if text[0] == 'J':
            return 'J'
        return 'O:' + (text if text[0] == '[' else text[1:-1])
    inside, result = re.fullmatch(r'\((.*)\)(.*)', desc).groups()
    return [one(t) for t in re.findall(r'\[*(?:L[^;]*;|[ZBCSIJ])', inside)], '' if result == 'V' else one(result)


def tokens_of(line):
    return re.findall(r'"(?:[^"\\]|\\.)*"|[^ ]+', line)


def slots(types):
    return sum(2 if t == 'J' else 1 for t in types)


def classes_of(text):
    """The classes of a text, each with its head, its fields and its methods, and a method with its lines of code."""
    classes, code = [], None
    for line in text.split('\n'):
        words = tokens_of(line)
        if not words or words[0].startswith('#'):
            continue
        if words[0] == 'class':
            classes.append({'flags': int(words[1], 16), 'name': words[2], 'super': words[3], 'interfaces': words[4:],
                            'version': None, 'fields': [], 'methods': []})
        elif words[0] == 'version':
            classes[-1]['version'] = int(words[1])
        elif words[0] == 'field':
            classes[-1]['fields'].append({'flags': int(words[1], 16), 'name': words[2], 'desc': words[3]})
        elif words[0] == 'method':
            classes[-1]['methods'].append({'flags': int(words[1], 16), 'name': words[2], 'desc': words[3], 'code': None})
        elif words[0] == 'code':
            code = []
            classes[-1]['methods'][-1].update(code=code, stack=int(words[1]), locals=int(words[2]))
        elif words[0] != 'end':
            code.append(words)
    return classes


class Typing:
    """Types one method. `asks` are the questions of assignability between two class names, in their order."""

    def __init__(self, owner, method, asks):
        self.owner, self.method, self.asks = owner, method, asks
        self.most_stack, self.most_locals = 0, 0
        self.code, self.frames, place = [], {}, {}
        for words in method['code']:
            if len(words) == 1 and words[0].endswith(':'):
                place[words[0][:-1]] = len(self.code)
            elif words[0] == 'frame':
                bar = words.index('|')
                self.frames[words[1]] = (self.locals_of(words[2:bar]), words[bar + 1:])
            elif words[0] == 'catch':
                raise Fault('a handler')
            else:
                self.code.append(words)
        self.place = place
        self.at = {place[label]: frame for label, frame in self.frames.items()}
        if set(place) != set(self.frames):
            raise Fault('labels without frames, or the reverse')

    @staticmethod
    def locals_of(types):
        found = []
        for t in types:
            found += [t, 'T'] if t == 'J' else [t]
        return found

    def assignable(self, source, target):
        if source == target or target == 'T':
            return
        if not target.startswith('O:') or source not in ('N',) and not source.startswith('O:'):
            raise Fault('%s for %s' % (source, target))
        a, b = source[2:], target[2:]
        if source == 'N' or b == 'java/lang/Object' or a.startswith('[') and b in (
                'java/lang/Cloneable', 'java/io/Serializable'):
            return
        if a.startswith('[') or b.startswith('['):
            raise Fault('%s for %s' % (source, target))
        self.asks.append((a, b))

    def fits(self, state, frame):
        locals_, stack = state
        declared = frame[0] + ['T'] * (self.method['locals'] - len(frame[0]))
        for source, target in zip(locals_, declared):
            self.assignable(source, target)
        if len(stack) != len(frame[1]):
            raise Fault('stacks of other heights')
        for source, target in zip(stack, frame[1]):
            self.assignable(source, target)

    def pop(self, want):
        if not self.stack:
            raise Fault('an empty stack')
        found = self.stack.pop()
        if want == 'A':
            if not (found == 'N' or found[:2] == 'O:'):
                raise Fault('%s for a reference' % found)
        else:
            self.assignable(found, want)
        return found

    def push(self, t):
        self.stack.append(t)
        self.most_stack = max(self.most_stack, slots(self.stack))
        if self.most_stack > self.method['stack']:
            raise Fault('too much stack')

    def load(self, letter, n):
        found = self.locals[n]
        self.most_locals = max(self.most_locals, n + (2 if letter == 'l' else 1))
        if letter == 'a':
            if found in ('I', 'J', 'T'):
                raise Fault('local %d is %s' % (n, found))
        elif found != LETTERS[letter]:
            raise Fault('local %d is %s' % (n, found))
        self.push(found)

    def store(self, letter, n):
        found = self.stack.pop()
        if letter != 'a' and found != LETTERS[letter] or letter == 'a' and found in ('I', 'J', 'T'):
            raise Fault('%s stored by %s' % (found, letter))
        self.most_locals = max(self.most_locals, n + (2 if letter == 'l' else 1))
        if n and self.locals[n - 1] == 'J':
            self.locals[n - 1] = 'T'
        self.locals[n] = found
        if letter == 'l':
            self.locals[n + 1] = 'T'

    def member(self, words):
        owner, name, desc = words[1:]
        if words[0] in ('getfield', 'putfield', 'getstatic', 'putstatic'):
            (t,), _ = types_of('(%s)V' % desc)
            if words[0].startswith('put'):
                self.pop(t)
            if words[0].endswith('field'):
                if words[0] == 'putfield' and self.stack[-1:] == ['U'] and owner == self.owner['name']:
                    self.stack.pop()
                else:
                    self.pop('O:' + owner)
            if words[0].startswith('get'):
                self.push(t)
            return
        params, result = types_of(desc)
        for t in reversed(params):
            self.pop(t)
        if name == '<init>':
            made = self.stack.pop()
            if made == 'U':
                if owner not in (self.owner['name'], self.owner['super']):
                    raise Fault('another constructor')
                full = 'O:' + self.owner['name']
            else:
                if made[0] != '@' or made.split(' ')[1] != owner:
                    raise Fault('a constructor on %s' % made)
                full = 'O:' + owner
            self.stack = [full if t == made else t for t in self.stack]
            self.locals = [full if t == made else t for t in self.locals]
        elif words[0] == 'invokespecial':
            self.pop('O:' + self.owner['name'])
        elif words[0] == 'invokevirtual':
            self.pop('O:' + owner)
        if result:
            self.push(result)

    def step(self, i, words):
        op = words[0]
        simple = re.fullmatch(r'([ila])(load|store)(?:_(\d))?', op)
        if simple:
            n = int(simple.group(3) or words[1])
            getattr(self, simple.group(2))(simple.group(1), n)
        elif op in MNEMONICS:
            takes, gives = MNEMONICS[op]
            for letter in reversed(takes):
                if letter == 'A':
                    want = 'O:[C' if op in ('caload', 'castore') else 'A'
                    if self.pop(want)[:3] != 'O:[':
                        raise Fault('no array')
                else:
                    self.pop(letter)
            for letter in gives:
                self.push(letter)
            if op == 'iinc' and self.locals[int(words[1])] != 'I':
                raise Fault('iinc of no int')
        elif op == 'ldc':
            self.push('O:java/lang/String' if words[1][0] == '"' else 'O:java/lang/Class' if words[1] == 'class' else 'I')
        elif op == 'dup':
            if self.stack[-1] == 'J':
                raise Fault('half of a long')
            self.push(self.stack[-1])
        elif op == 'dup2' and self.stack[-1] == 'J':
            self.push('J')
        elif op == 'pop' and self.stack[-1] != 'J':
            self.stack.pop()
        elif op == 'new':
            self.push('@%d %s' % (i, words[1]))
        elif op == 'newarray' and words[1] == '5':
            self.pop('I')
            self.push('O:[C')
        elif op == 'checkcast':
            self.pop('A')
            self.push('O:' + words[1])
        elif op == 'instanceof':
            self.pop('A')
            self.push('I')
        elif op in ('ifnull', 'ifnonnull'):
            self.pop('A')
        elif op in ('if_acmpeq', 'if_acmpne'):
            self.pop('A')
            self.pop('A')
        elif op == 'lookupswitch':
            self.pop('I')
        elif op == 'athrow':
            self.pop('O:java/lang/Throwable')
        elif op.endswith('return'):
            result = types_of(self.method['desc'])[1]
            if result:
                self.pop(result)
            if {'': '', 'I': 'i', 'J': 'l'}.get(result, 'a') + 'return' != op:
                raise Fault('another return')
            if self.method['name'] == '<init>' and 'U' in self.locals:
                raise Fault('returns uninitialised')
        elif op.startswith('invoke') or op[3:] in ('field', 'static'):
            self.member(words)
        elif op != 'goto':
            raise Fault('no rule for it')

    def run(self):
        method, owner = self.method, self.owner
        params, _ = types_of(method['desc'])
        if not method['flags'] & 8:
            starts = method['name'] == '<init>' and owner['super'] != '-'
            params = ['U' if starts else 'O:' + owner['name']] + params
        first = self.locals_of(params)
        self.most_locals = len(first)
        self.locals, self.stack = first + ['T'] * (method['locals'] - len(first)), []
        reached = True
        for i, words in enumerate(self.code):
            if i in self.at:
                if reached:
                    self.fits((self.locals, self.stack), self.at[i])
                declared = self.at[i][0]
                self.locals = declared + ['T'] * (method['locals'] - len(declared))
                self.stack = list(self.at[i][1])
            elif not reached:
                raise Fault('%d: no frame' % i)
            try:
                self.step(i, words)
                for label in words[1:] if words[0] == 'lookupswitch' else words[1:2]:
                    if label in self.place and (words[0].startswith('if') or words[0] in ('goto', 'lookupswitch')):
                        self.fits((self.locals, self.stack), self.frames[label])
            except (Fault, IndexError) as fault:
                raise Fault('%d %s: %s' % (i, ' '.join(words), fault))
            reached = words[0] not in ENDS
        if reached:
            raise Fault('falls off the end')
        return self.most_stack, self.most_locals


def type_classes(text):
    """The faults of a text, a line each, and the questions of each class."""
    faults, asks = [], {}
    for owner in classes_of(text):
        asked = asks.setdefault(owner['name'], [])
        for method in owner['methods']:
            name = '%s.%s%s' % (owner['name'], method['name'], method['desc'])
            has_code = not method['flags'] & 0x0500
            if has_code != (method['code'] is not None):
                faults.append('%s: code, or none' % name)
            elif has_code:
                try:
                    sizes = Typing(owner, method, asked).run()
                    if sizes != (method['stack'], method['locals']):
                        faults.append('%s: takes %d %d' % ((name,) + sizes))
                except (Fault, IndexError, KeyError) as fault:
                    faults.append('%s: %s' % (name, fault))
    return faults, asks
