"""The form of a clause's comment: its premise and its promise, and whether a reader understands it without another row."""
import re

# a comment with a premise: 'If PREMISE, then PROMISE.'
PREMISE = re.compile(r"If (.+?), then (.+)")
END_OF_SENTENCE = re.compile(r"\.(?=\s+[A-Z`(]|$)")
# Words that stand for something in another row, if a comment begins with them, or with one of OPENING and then with them ..
OPENING = "if where when unless after before with for by over of in from under only what and but".split()
LEANING = (
    *"so then they their these those such likewise else otherwise nor neither also again here that".split(),
    "both (?:are|do|fit|give|had|has|have|hold|keep|said|say|tell|told|were)",
    r"(?:no|any|every|all|each|the) others?\b(?!.*\bthan\b)",
)
# .. only if a comment begins with them ..
BEGINNING = ("it", "its", "and", "but", "the same", "under the same", "the rest", r"this\b(?! call)", r"both\b(?! (?:the|of|an?)\b)")
# .. and wherever they stand
NAMING = (
    "as above",
    "(?:said|named|rows?|clauses?|lines?|sentence|premises?) above",
    "(?:above|next) row",
    "(?:row|clause) (?:before|below)",
    "as before it",
    "that other",
    "the same premises?",
    "the (?:former|latter)",
    "(?:it is|they are) so",
)
AT_THE_BEGINNING = re.compile(rf"(?:(?:{'|'.join(OPENING)}) )?(?:{'|'.join(LEANING)})\b|(?:{'|'.join(BEGINNING)})\b", re.I)
ANYWHERE = re.compile(rf"\b(?:{'|'.join(NAMING)})\b", re.I)


def premise_and_promise(words):
    """Returns a comment's premise and its promise; the premise is empty if the comment begins with none."""
    found = PREMISE.match(words)
    if not found or END_OF_SENTENCE.search(found[1]):
        return "", words
    return found[1], found[2][0].upper() + found[2][1:]


def fault_of(words):
    """Returns why a comment makes no row that can be read alone, and nothing if it makes one."""
    leaning = AT_THE_BEGINNING.match(words) or ANYWHERE.search(words)
    if leaning:
        return f'leans on another row ("{leaning[0]}")'
    if words.startswith("If ") and not premise_and_promise(words)[0]:
        return "begins with 'If ' and has no ', then ' in its first sentence"
    return None
