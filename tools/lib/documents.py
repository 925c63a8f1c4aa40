"""Documents as an installation has them: commands by their names there, and links that lead somewhere."""
import os
import re

# what holds in the repository alone, and what is said instead in an installation, if anything is
PART = re.compile(r'^<!-- in the repository -->\n.*?^(?:<!-- installed\n(.*?)-->|<!-- end -->)\n', re.M | re.S)
PROGRAM = re.compile(r'(?<![\w./])(?:\./|(?:\.\./)+)(ti_bench|ti_debug)\b')
LINK = re.compile(r'\[([^\]\n]*)\]\(([^)\s#:]+)(#[^)\s]*)?\)')
# the documents that are about the repository, whose commands are given there
OF_REPOSITORY = {'CHANGELOG.md', 'CONTRIBUTING.md', *(f'docs/{name}.md' for name in (
    'ARCHITECTURE', 'CLAIMS', 'DECISIONS', 'INSTALL', 'INTERPRETER', 'PROOF', 'REFEREES', 'RELEASE', 'TESTING'))}


def linked(path, text, places):
    """A document whose links lead to where an installation has their files. A link to a file that it has not is its
    text alone."""
    def link(found):
        shown, target, part = found.groups()
        place = places.get(os.path.normpath(os.path.join(os.path.dirname(path), target)))
        if not place:
            return shown
        return f'[{shown}]({os.path.relpath(place, os.path.dirname(places[path]))}{part or ""})'
    return LINK.sub(link, text)


def installed(path, text, places, tools):
    """The text of a document of the repository in an installation, which has files at places, by their paths."""
    text = PART.sub(lambda found: found[1] or '', text)
    if path not in OF_REPOSITORY:
        text = PROGRAM.sub(r'\1', text)
        text = re.sub(rf'(?<![\w./])tools/({"|".join(tools)})\b', r'ti_bench-\1', text)
    return linked(path, text, places)
