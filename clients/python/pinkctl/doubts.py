"""Traces of lost changes on a flash that opens.

There is no checksum. A changed byte in the newest root, or in the state of a page, can make an
older map open without a fault. What the program leaves on a flash follows rules, though, and each
function here names the places that break one. None breaks on an image that only the program wrote,
but for `commit-unfinished`, which a kill at the wrong instant leaves too.
"""

import dataclasses
from collections.abc import Iterator, Sequence
from typing import Optional

from . import layout as it
from .image import (
    Entry,
    Epoch,
    Flash,
    Image,
    Root,
    commit_in,
    first_entries,
    root_in,
    root_version,
)
from .layout import ERASED, TORN, WHOLE


@dataclasses.dataclass(frozen=True)
class Doubt:
    """A place that breaks a rule: a code for programs, the page, if it is one of a page, and words for people."""

    code: str
    page: Optional[int]
    text: str


def doubts_of(image: Image, flash: Flash) -> list[Doubt]:
    """All doubts about a flash that has a root, in the order of their pages by kind."""
    if flash.root is None:
        return []
    found = [*log_doubts(image), *root_doubts(image, flash)]
    if flash.opens:
        found += [*commits_that_differ(image, flash), *epoch_ends(image, flash), *other_commits(image, flash, flash.root)]
        found += [*run_ends(image, flash, flash.root), *baseless_deletions(flash)]
    return found


def log_doubts(image: Image) -> Iterator[Doubt]:
    """A log whose last batch is not whole is what a kill leaves; one with a whole batch after such a one is damaged."""
    if image.log and image.log.broken:
        yield Doubt("log-broken", None, f"a batch of {image.log.path} is not whole and one after it is: what they changed is lost")


def root_doubts(image: Image, flash: Flash) -> list[Doubt]:
    """The doubts about the root blocks alone."""
    if flash.root is None:
        return []
    found = [*wrong_roots(image, flash, flash.root), *broken_numbers(image, flash), *hidden_roots(image, flash)]
    return [*found, *root_that_differs(image, flash, flash.root), *broken_change(image, flash, flash.root)]


def wrong_roots(image: Image, flash: Flash, root: Root) -> Iterator[Doubt]:
    """Whole pages of the root blocks that are no root: the newest root may be among them."""
    known = {other.page for other in flash.roots}
    for page in flash.layout.root_pages:
        if image.states[page] == WHOLE and page not in known:
            version = root_version(image.page(page))
            named = f"names version {version}" if version not in (None, *it.RULES) else "is damaged"
            if page in unit_of(flash, root.page):
                words = f"root page {page} {named}; page {root.page} has the same root, so the map is the same"
                yield Doubt("former-root-wrong", page, words)
            elif is_older(flash, root, page):
                words = f"root page {page} {named}; it is older than the newest root, so the map is the same"
                yield Doubt("former-root-wrong", page, words)
            else:
                yield Doubt("root-wrong", page, f"root page {page} {named}: an older map may have opened")


def unit_of(flash: Flash, page: int) -> range:
    """The pages that were programmed with the same bytes as this page of a root."""
    first = page - page % flash.layout.step
    return range(first, first + flash.layout.step)


def that_differ(image: Image, pages: Sequence[int], what: str) -> Iterator[Doubt]:
    """Whole pages that were programmed with the same bytes and have others."""
    whole = [page for page in pages if image.states[page] == WHOLE]
    for page in whole[1:]:
        if image.page(page) != image.page(whole[0]):
            yield Doubt("pair-differs", page, f"pages {whole[0]} and {page} were programmed with the same {what} and differ")


def root_that_differs(image: Image, flash: Flash, root: Root) -> Iterator[Doubt]:
    """Both pages of the newest root are roots with other bytes."""
    known = {other.page for other in flash.roots}
    yield from that_differ(image, [page for page in unit_of(flash, root.page) if page in known], "root")


def commits_that_differ(image: Image, flash: Flash) -> Iterator[Doubt]:
    """Both pages of a commit are Whole with other bytes: the one that was read may be the changed one."""
    for epoch in (flash.older, flash.newest):
        for commit in epoch.commits if epoch else ():
            yield from that_differ(image, flash.layout.commit_pages(epoch.blocks, commit.place), "commit")


def is_older(flash: Flash, root: Root, page: int) -> bool:
    """Whether a page of the root blocks was surely written before the newest root."""
    n = flash.layout.shape.block_pages
    if page // n == root.page // n:
        return page < root.page
    return any(other.page // n == page // n for other in flash.roots)


def broken_numbers(image: Image, flash: Flash) -> Iterator[Doubt]:
    """In a block each root has the number after the one before it, and the older block ends before the newer begins."""
    n = image.shape.block_pages
    by_block: list[list[Root]] = [[], []]
    for root in flash.roots:
        by_block[root.page // n].append(root)
    for roots in by_block:
        places = [(root.page // flash.layout.step, root) for root in roots]
        for (place, root), (next_place, later) in zip(places, places[1:]):
            if later.number - root.number != next_place - place:
                words = f"the root in page {later.page} has number {later.number} after {root.number}"
                yield Doubt("root-number", later.page, words)
    if all(by_block):
        low, high = sorted(by_block, key=lambda roots: max(root.number for root in roots))
        ends, begins = max(root.number for root in low), min(root.number for root in high)
        if begins != ends + 1:
            yield Doubt("root-number", high[0].page, f"the root blocks have numbers up to {ends} and from {begins} on")


def hidden_roots(image: Image, flash: Flash) -> Iterator[Doubt]:
    """Pages that are marked erased and hold a newer root."""
    assert flash.root is not None
    for page in flash.layout.root_pages:
        if image.states[page] == ERASED:
            hidden = root_in(image.shape, page, image.page(page))
            if hidden and hidden.number > flash.root.number:
                yield Doubt("root-erased", page, f"page {page} is marked erased and holds root {hidden.number}, newer than the newest")


def broken_change(image: Image, flash: Flash, root: Root) -> Iterator[Doubt]:
    """The newest root follows from the one before it by a freeze or a merge."""
    before = next((other for other in flash.roots if other.number == root.number - 1), None)
    if before is None:
        if root.number > 1:
            yield Doubt("root-number", root.page, f"there is no root {root.number - 1} before the newest")
        return
    change = freeze_fault(image, flash, before, root) if root.epoch != before.epoch else merge_fault(before, root)
    if change:
        yield Doubt("root-change", root.page, f"the newest root does not follow from root {before.number}: {change}")


def freeze_fault(image: Image, flash: Flash, before: Root, root: Root) -> Optional[str]:
    """Why a root is not the one of a freeze, or None."""
    if root.epoch != before.epoch + 1:
        return f"its epoch is {root.epoch} after {before.epoch}"
    if before.older:
        return "the older epoch was not merged"
    if (root.counts, root.runs) != (before.counts, before.runs):
        return "it changes a run together with the epoch"
    if not set(root.newest).isdisjoint(before.named):
        return "its epoch lies in blocks that were in use"
    if root.older == before.newest:
        return None
    if root.older:
        return "its older epoch is not the one before"
    first = flash.layout.commit_pages(before.newest, 0)
    for page in first:
        commit = commit_in(flash.layout, image.page(page)) if image.states[page] == WHOLE else None
        if commit and commit.epoch == before.epoch:
            return "it names no older epoch, and there is one"
    return None


def merge_fault(before: Root, root: Root) -> Optional[str]:
    """Why a root is not the one of a merge, or None."""
    if root.newest != before.newest:
        return "it changes the blocks of the newest epoch"
    if not before.older:
        return "there was nothing to merge"
    emptied = [i for i in range(it.LEVELS - 1) if before.counts[i] and not root.counts[i]]
    level = 0 if not root.older else emptied[0] + 1 if emptied else None
    if level is None or (root.older and root.older != before.older):
        return "it is no merge of two neighbouring levels"
    for i in range(it.LEVELS):
        same = (root.counts[i], root.runs[i]) == (before.counts[i], before.runs[i])
        if not same and i != level and not (level and i == level - 1):
            return f"it changes run {i + 1} too"
    if not set(root.runs[level]).isdisjoint(before.named):
        return f"run {level + 1} lies in blocks that were in use"
    return count_fault(before, root, level)


def count_fault(before: Root, root: Root, level: int) -> Optional[str]:
    """Why the output of a merge into this run (counted from 0) cannot have this count of entries, or None."""
    count, target = root.counts[level], before.counts[level]
    source = before.counts[level - 1] if level else None
    last = level == it.LEVELS - 1
    if not last and count < max(target, source or 1):
        return f"run {level + 1} has fewer entries than a merge leaves"
    if source is not None and count > target + source:
        return f"run {level + 1} has more entries than a merge leaves"
    return None


def epoch_ends(image: Image, flash: Flash) -> Iterator[Doubt]:
    """An epoch ends at a page that was not written, and nothing was written after it."""
    for epoch in (flash.older, flash.newest):
        if epoch is None or epoch.end is None:
            continue
        yield from unfinished_commit(image, flash, epoch, epoch.end)
        yield from commits_after(image, flash, epoch)


def unfinished_commit(image: Image, flash: Flash, epoch: Epoch, page: int) -> Iterator[Doubt]:
    """The page at which an epoch ends has the bytes of its next commit."""
    text, number, *_ = it.JOURNAL_HEAD.unpack_from(image.page(page))
    if text != it.JOURNAL_TEXT or number != epoch.number:
        return
    if image.states[page] == TORN:
        words = (
            f"the commit in page {page} is marked as not finished, and its bytes are there: the program was killed (or power was "
            "lost) just then, and the commands of the commit were not answered; or the mark was changed, and they are lost"
        )
        yield Doubt("commit-unfinished", page, words)
    else:
        yield Doubt("commit-erased", page, f"page {page} is marked erased and holds a commit of the epoch: its commands are lost")


def commits_after(image: Image, flash: Flash, epoch: Epoch) -> Iterator[Doubt]:
    for index in range(len(epoch.commits) + 1, flash.layout.commits):
        for page in flash.layout.commit_pages(epoch.blocks, index):
            if image.states[page] != ERASED:
                yield Doubt("commit-after-end", page, f"page {page} was written after the end of its epoch, which is page {epoch.end}")
                return


def other_commits(image: Image, flash: Flash, root: Root) -> Iterator[Doubt]:
    """Whole commits of this epoch or a newer one that reading did not come to."""
    read = set()
    for epoch in (flash.older, flash.newest):
        read |= epoch.pages if epoch else set()
    oldest = root.epoch - bool(root.older)
    for page in whole_pages_with(image, it.JOURNAL_TEXT):
        number = it.JOURNAL_HEAD.unpack_from(image.page(page))[1]
        if number >= oldest and page not in read:
            newer = "a newer epoch" if number > root.epoch else "the epoch"
            yield Doubt("commit-elsewhere", page, f"page {page} has a commit of {newer} ({number}) that the newest root does not reach")


def whole_pages_with(image: Image, text: bytes) -> Iterator[int]:
    """The Whole pages after the root blocks that begin with this text."""
    page = it.ROOT_BLOCKS * image.shape.block_pages
    while (page := image.states.find(WHOLE, page)) >= 0:
        if image.head(page, len(text)) == text:
            yield page
        page += 1


def run_ends(image: Image, flash: Flash, root: Root) -> Iterator[Doubt]:
    """The blocks of a run have nothing after its last page."""
    n = image.shape.block_pages
    for level, (count, blocks) in enumerate(zip(root.counts, root.runs), 1):
        for index in range(flash.layout.run_pages(count), n * len(blocks)):
            page = flash.layout.run_page(blocks, index)
            if image.states[page] != ERASED:
                yield Doubt("run-after-end", page, f"page {page} is after the end of run {level}: the run was longer")
                break


def baseless_deletions(flash: Flash) -> Iterator[Doubt]:
    """A deletion in the journal has a key that was there."""
    below = first_entries(Flash(flash.roots, flash.layout, runs=flash.runs))
    present = {key for key, place in below.items() if place}
    for epoch in (flash.older, flash.newest):
        for commit in epoch.commits if epoch else ():
            if not all_present(commit.entries, present):
                page = flash.layout.commit_pages(epoch.blocks, commit.place)[0] if epoch else 0
                words = f"a commit in page {page} deletes a key that was not there: it may be another key's deletion"
                yield Doubt("deletion-of-nothing", page, words)


def all_present(entries: Sequence[Entry], present: set[bytes]) -> bool:
    """Whether each deleted key was present; `present` has the keys after the entries."""
    missing = 0
    for key, place in entries:
        if place:
            present.add(key)
        else:
            missing += key not in present
            present.discard(key)
    return not missing
