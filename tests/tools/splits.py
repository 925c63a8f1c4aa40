"""Random splits of a source into files and macros, which expand to the source again."""
import re

FIELD = re.compile(r"([^ \t]*)([ \t]+)([^ \t]+)([ \t]+)((?:[^ \t',]|'[^']*')+)")
# the lines that stay of the forms, as comments
KEPT = re.compile(r'^\* *(?:COPY "PART|TIMES[0-9]).*\n', re.M)


class Split:
    """A source in files: their texts by their names, with macros for some of its lines."""

    def __init__(self, text, random):
        self.random, self.files, self.macros, self.copies = random, {}, [], 0
        lines = text.split('\n')
        end = lines.pop()
        body = self.divided(self.in_macros(lines), 0)
        self.files['main.gpl'] = '\n'.join([*self.macros, *body, end])

    def in_macros(self, lines):
        """Lines of which some runs are macros, each used once where they stood."""
        made, at = [], 0
        while at < len(lines):
            length = self.random.randint(1, 6)
            if self.random.random() < 0.15 and len(lines) > 1:
                made.append(self.macro(lines[at:at + length]))
            else:
                made += lines[at:at + length]
            at += length
        return made

    def macro(self, lines):
        """The use of a macro for some lines; one operand of each of some of them is a parameter."""
        name, given, body = f'TIMES{len(self.macros)}', [], []
        for line in lines:
            found = not line.startswith('*') and FIELD.match(line)
            if found and found[5][0] != '.' and self.random.random() < 0.5:
                parameter = f'P{len(given)}'
                line = line[:found.start(5)] + f'\\{parameter}' + line[found.end(5):]
                line = line.replace(f'\\{parameter}', self.random.choice([f'\\{parameter}', f'\\{parameter.lower()}']))
                given.append((parameter, found[5]))
            body.append(line)
        heads = ','.join(parameter for parameter, _ in given)
        self.macros += [f'{name} MACRO {heads}', *body, ' ENDM']
        return f' {name} {",".join(text for _, text in given)}'

    def divided(self, lines, depth):
        """Lines of which some runs are in files, up to the depth that is allowed."""
        made, at = [], 0
        while at < len(lines):
            length = self.random.randint(1, 1 + len(lines) // 2)
            run = lines[at:at + length]
            if depth < 4 and self.copies < 64 and self.random.random() < 0.4:
                name = f'PART{self.copies}'
                self.copies += 1
                # the last line may be without its end, but not if it is empty or ends in a carriage return
                end = self.random.choice(['', '\n']) if run[-1].rstrip('\r') == run[-1] != '' else '\n'
                self.files[name] = '\n'.join(self.divided(run, depth + 1)) + end
                made.append(f' COPY "{name}"')
            else:
                made += run
            at += length
        return made


def joined(text):
    """An expanded source without the lines that stay of the forms."""
    return KEPT.sub('', text)
