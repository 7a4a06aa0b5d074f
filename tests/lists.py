"""Lists of calls to a store of one owner that are made at once, with memory refused. Where it runs out, the calls before stay done: so the
store is then one that the list leads through, no claim is left, and the list may be made anew."""

from typing import List, NamedTuple, Set, Tuple

from play import LOOKS, MADE, MARKED, MEMORY, Frame, Raw, Reply, Wrong, answers_in, number, planted, run_refused, wants
from shop import ALONE, LOOK, OPEN, Call, Options, Shop, call_of, look_in, open_spelling, reply_words, writes_of


class Course(NamedTuple):
    """The writes that a store is opened with, each of which is a run, the sequences that it keeps, calls with their replies, and what the
    store is in the end."""

    name: str
    writes: str
    keeps: List[int]
    calls: List[str]
    replies: List[str]
    end: str


COURSES = [
    Course(
        "a claim, a compaction, queries and an install",
        "put k a + merge k b + merge l c + range l m + merge k d + merge l e",
        [3, 5],
        ["claim 0 2 2", "compact 0 2", "ask 2 1 get k 5 + get l 3 + scan a - 6 9", "install 0", "pick", "report"],
        [
            "claimed 0",
            "compacted 7",
            "value a,b,d + value c + rows k=a,b,d l=e",
            "installed 8",
            "picked 0 4",
            "run 7 slot 5 points 2 fragments 0 size 20 seqs 5 6\nrun 8 slot 3 points 1 fragments 1 size 20 seqs 3 4\n"
            "run 2 slot 1 points 1 fragments 0 size 10 seqs 2 2\nrun 1 slot 0 points 1 fragments 0 size 10 seqs 1 1\n"
            "total runs 4 points 5 fragments 1 size 60\nkeeps 3,5,6\nlast 6",
        ],
        "runs 4: 7 in 5, 8 in 3, 2 in 1, 1 in 0, keeps 3,5,6, last 6, next id 9",
    ),
    Course(
        "a feed, a snapshot and a release behind a claim",
        "put k a + merge k b + merge l c + merge k d",
        [2],
        ["claim 0 1 2", "feed merge k e + put m f", "keep", "get k 6", "install 0", "release 2", "release 3", "abandon 1"],
        ["claimed 0", "fed 2", "kept 6", "value a,b,d,e", "installed 7", "released 2", "refused: no snapshot keeps sequence 3", "no claim 1"],
        "runs 5: 6 in 5, 5 in 4, 4 in 3, 7 in 2, 1 in 0, keeps 4,6, last 6, next id 8",
    ),
]


class Made(NamedTuple):
    """A story that makes the first calls of a course at once, and looks at the store then."""

    shop: Shop
    made: Reply
    look: Reply


def calls_of(course: Course) -> List[Call]:
    last = len(writes_of(course.writes, 0))
    calls = []
    for said in course.calls:
        calls.append(call_of(said, last))
        last += len(calls[-1].writes)
    return calls


def listed(course: Course, count: int) -> Made:
    shop = Shop()
    opened = open_spelling(0, Options(memtable=1, trigger=2), course.keeps, b"", writes_of(course.writes, 0))
    shop.call(OPEN, Raw(number(ALONE) + opened), name="open", marked=False)
    made = shop.make_list(calls_of(course)[:count])
    return Made(shop, made, shop.call(LOOK, name="look", marked=False))


def looks_between(course: Course) -> Set[bytes]:
    """All that the store is while the calls of a course are made."""
    looks = set()
    for count in range(len(course.calls) + 1):
        story = listed(course, count)
        failures = story.shop.play()
        if failures:
            raise Wrong(failures[0])
        looks.add(story.look.data)
    return looks


def compare(course: Course, reply: Reply) -> None:
    kind = reply.number()
    wants(kind, 10, "the kind of reply")
    wants([reply_words(reply)[0] for _ in range(reply.number())], course.replies, "replies")


def compare_end(course: Course, look: Reply) -> None:
    version = look_in(look)
    wants((version.words(), any(version.busy)), (course.end, False), "the end")


def refused_at(course: Course, request: int, looks: Set[bytes]) -> bool:
    """Makes the list of a course with a request refused. Returns whether there was such a request."""
    story = listed(course, len(course.calls))
    frames = story.shop.frames
    # The store is looked at before the list, so it is looked at after want of memory too.
    frames.insert(1, Frame(LOOKS, number(LOOK), Reply("a look")))
    frames[2] = frames[2]._replace(way=MARKED)
    output, counts = run_refused(story.shop.spelling({2: request}))
    _, _, made, *behind = planted(answers_in(output))
    if made.status == MEMORY:
        wants(behind[0].status, MADE, "the look behind it")
        wants(behind[0].data in looks, True, f"whether the store is one that calls lead through, where request {request} was refused")
        return True
    story.made.fill(*made)
    compare(course, story.made)
    return counts[0] >= request


def refused_in(course: Course) -> int:
    """Refuses each request of a course. Returns how many there are."""
    looks, request = looks_between(course), 1
    while refused_at(course, request, looks):
        request += 1
    return request - 1


# The lists themselves count how often they were refused memory.
REFUSES: Set[str] = set()


def play(refuse: bool = False) -> Tuple[int, List[str], int]:
    """Plays all courses. Returns how many there are, what is wrong, and how many requests were refused."""
    failures, refused = [], 0
    for course in COURSES:
        where = f"tests/lists.py, {course.name}"
        try:
            story = listed(course, len(course.calls))
            story.shop.check(where, lambda course=course, story=story: compare(course, story.made))
            story.shop.check(where, lambda course=course, story=story: compare_end(course, story.look))
            failures += story.shop.play() if not refuse else []
            refused += refused_in(course) if refuse else 0
        except Wrong as why:
            failures.append(f"{where}: {why}")
    return len(COURSES), failures, refused
