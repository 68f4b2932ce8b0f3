"""Documents of ordinary prose for the benchmark: sections with paragraphs, emphasis, references, lists and some directives."""

import random

WORDS = (
    "the of and to in is was for on that with as his they be at one have this from or had by hot word but what some we can out other "
    "were all there when up use your how said an each she which do their time if will way about many then them write would like so these "
    "her long make thing see him two has look more day could go come did number sound no most people my over know water than call first who "
    "may down side been now find any new work part take get place made live where after back little only round man year came show every "
    "good me give our under name very through just form sentence great think say help low line differ turn cause much mean before move "
    "right boy old too same tell does set three want air well also play small end put home read hand port large spell add even land here "
    "must big high such follow act why ask men change went light kind off need house picture try us again animal point mother world near"
).split()


RUSSIAN = (
    "и в не на что он я с как это она по но они мы из у за вы так для ты же от все когда только уже бы было ещё может если время люди год дом "
    "день рука раз работа слово место лицо друг вопрос жизнь сторона стол вода город земля история книга дерево письмо дорога утро язык"
).split()
FRENCH = (
    "le de un à être et en avoir que pour dans ce il qui ne sur se pas plus pouvoir par je avec tout faire son mettre autre on mais nous comme ou si "
    "leur y dire elle devoir avant deux même prendre aussi celui donner bien où fois vous encore nouveau aller cela entre premier déjà très été forêt "
    "élève hôtel français garçon cœur naïf août tête répéter lumière"
).split()
CHINESE = (
    "我们 今天 天气很好 他在学校里 学习 中文 这本书 非常有意思 老师说 明天 大家一起 去公园 因为 所以 但是 如果下雨 我就 不出门 朋友 昨天 来看我 "
    "一杯茶 城市 的历史 很长 山上 有一座 古老的庙 河水 向东流 每年春天 花都开了 孩子们 在院子里 玩 时间 过得真快"
).split()


class Prose:
    """A text that is being written, from a list of words."""

    # how many of the words are pieces of markup
    share = 0.03

    def __init__(self, words):
        self.all_words = words
        self.rng = random.Random(1)
        self.parts = []
        self.size = 0
        self.sections = 0
        self.links = 0

    def put(self, text):
        self.parts.append(text)
        self.size += len(text)

    def words(self, least, most):
        return [self.rng.choice(self.all_words) for _ in range(self.rng.randint(least, most))]

    def phrase(self):
        return " ".join(self.words(1, 3))

    def piece(self):
        """A piece of markup; most of the prose is plain words."""
        kind = self.rng.random()
        if kind < 0.35:
            return f"*{self.phrase()}*"
        if kind < 0.55:
            return f"**{self.phrase()}**"
        if kind < 0.8:
            return f"``{self.rng.choice(self.all_words)}()``"
        if kind < 0.9:
            return f"`{self.title(self.rng.randint(1, self.sections))}`_"
        self.links += 1
        return f"`{self.phrase()} {self.links} <https://example.org/{self.rng.choice(self.all_words)}/{self.links}>`_"

    def text(self, least, most, indent=""):
        """Words with some markup, broken at 72 columns, each line but the first indented."""
        lines, line = [], ""
        for word in self.words(least, most):
            word += "," if self.rng.random() < 0.08 else ""
            if self.rng.random() < self.share:
                word = self.piece()
            if len(line) + len(word) > 71 - len(indent):
                lines.append(line)
                line = ""
            line = f"{line} {word}" if line else word[:1].upper() + word[1:] if not lines else word
        return ("\n" + indent).join([*lines, line.rstrip(",") + "."])

    def title(self, number):
        """The title of a section; no two are the same."""
        first, second = (self.all_words[place % len(self.all_words)] for place in (number, number * 7))
        return f"{first.capitalize()} {second} {number}"

    def section(self):
        self.sections += 1
        title = self.title(self.sections)
        self.put(f"{title}\n{('=', '-', '-', '-')[self.sections % 4 - 1] * len(title)}\n\n")

    def bullet_list(self):
        for _ in range(self.rng.randint(3, 7)):
            self.put(f"- {self.text(4, 30, '  ')}\n")
        self.put("\n")

    def enumerated_list(self):
        for number in range(1, self.rng.randint(4, 8)):
            self.put(f"{number}. {self.text(4, 30, '   ')}\n")
        self.put("\n")

    def definition_list(self):
        for _ in range(self.rng.randint(2, 5)):
            self.put(f"{self.phrase()}\n    {self.text(6, 30, '    ')}\n\n")

    def code(self):
        lines = "".join(f"    {name} = {self.rng.choice(self.all_words)}({self.rng.randint(0, 99)})\n" for name in self.words(2, 6))
        self.put(f"{self.text(4, 12)[:-1]}::\n\n{lines}\n")

    def directive(self):
        if self.rng.random() < 0.7:
            self.put(f".. note::\n   {self.text(10, 40, '   ')}\n\n")
        else:
            self.put(f".. image:: pictures/{self.rng.choice(self.all_words)}.png\n   :alt: {self.phrase()}\n   :width: {self.rng.randint(10, 90)}%\n\n")

    def table(self):
        rows = "".join(f"{self.rng.choice(self.all_words):<12}  {' '.join(self.words(2, 6))}\n" for _ in range(self.rng.randint(3, 8)))
        rule = f"{'=' * 12}  {'=' * 40}\n"
        self.put(f"{rule}{'Name':<12}  Meaning\n{rule}{rows}{rule}\n")

    def block(self):
        kind = self.rng.random()
        if kind < 0.7:
            self.put(f"{self.text(20, 120)}\n\n")
        elif kind < 0.8:
            self.bullet_list()
        elif kind < 0.84:
            self.enumerated_list()
        elif kind < 0.88:
            self.definition_list()
        elif kind < 0.93:
            self.code()
        elif kind < 0.97:
            self.directive()
        else:
            self.table()


class Plain(Prose):
    """Words with punctuation in the place of markup."""

    share = 0.2

    def piece(self):
        word, other = self.words(2, 2)
        marks = ("({})", '"{}"', "{}'s", "{}:", "{};", "{}-{}", "{} - {}", "{}/{}", "{}!", "{}?", "{} & {}", "{}, e.g. {}")
        return self.rng.choice(marks).format(word, other)


def plain(size, words=None):
    """Plain paragraphs with ordinary punctuation, about `size` characters of these words (by default English ones)."""
    made = Plain(words or WORDS)
    while made.size < size:
        made.put(f"{made.text(20, 120)}\n\n")
    return "".join(made.parts)


def prose(size, words=None):
    """A document of ordinary prose of about `size` characters of these words (by default English ones), the same each time."""
    made = Prose(words or WORDS)
    while made.size < size:
        made.section()
        for _ in range(made.rng.randint(2, 8)):
            made.block()
    return "".join(made.parts)


def references(size):
    """Short paragraphs with a phrase reference each, about `size` bytes, and the target that they all have."""
    paragraph = "A text with `a name`_ in it.\n\n"
    return paragraph * (size // len(paragraph)) + ".. _a name: http://example.org/\n"
