"""The page rule in its simplest form, independent of the program: a list in pages is a list of lists.

A command touches at most one page of a list and makes new lists of its items. All other pages remain the same Python
objects, so `is` shows which pages no command has touched.
"""

# The most items of a page. A longer touched page of records is cut into pages of CUT; no page of changes is longer.
MOST, CUT = 64, 32


def cut(page):
    """Cut a touched page of records into pages; no page is left if it has no items."""
    pages = []
    while len(page) > MOST:
        pages.append(page[:CUT])
        page = page[CUT:]
    return [*pages, page] if page else pages


def home(pages, name):
    """Return the place of the last page whose first name is not above this one, or of the first page."""
    places = [place for place, page in enumerate(pages) if page[0][0] <= name]
    return places[-1] if places else 0


def holds(pages, name):
    """Return whether a page has an item of this name."""
    return any(name == item[0] for page in pages for item in page)


def bound(pages, item):
    """Return a list of records with this item instead of any with its name, which is the item's first field."""
    if not pages:
        return [[item]]
    place = home(pages, item[0])
    others = [other for other in pages[place] if other[0] != item[0]]
    return [*pages[:place], *cut(sorted([*others, item])), *pages[place + 1 :]]


def unbound(pages, name):
    """Return a list of records without the item of this name, which must be in it."""
    place = home(pages, name)
    others = [other for other in pages[place] if other[0] != name]
    return [*pages[:place], *cut(others), *pages[place + 1 :]]


def dropped(pages, count):
    """Return a list of changes without its first `count` ones.

    The rest of the page in which the cut falls is cut into pages again; the last of these may be shorter.
    """
    while pages and len(pages[0]) <= count:
        count, pages = count - len(pages[0]), pages[1:]
    if not count:
        return pages
    remaining = pages[0][count:]
    return [*(remaining[at : at + MOST] for at in range(0, len(remaining), MOST)), *pages[1:]]


def appended(pages, change):
    """Return a list of changes with one more change."""
    if pages and len(pages[-1]) < MOST:
        return [*pages[:-1], [*pages[-1], change]]
    return [*pages, [change]]


class Lists:
    """The three lists of a source in pages. A record is a name and a moment; a change is a name, its kind and a moment.

    Changes are cut into parts of `limit`. The first kept part has the number `first`, the kept changes begin after
    `begin`, and `at` is the moment of the latest publication.
    """

    def __init__(self, limit, catalogue=(), changes=(), published=(), last=0, at=0, first=0, begin=0):
        self.catalogue, self.changes, self.published = list(catalogue), list(changes), list(published)
        self.limit, self.last, self.at, self.first, self.begin = limit, last, at, first, begin

    def put(self, name):
        """Put a name, and return the kind of the change."""
        what = "updated" if holds(self.catalogue, name) else "created"
        self.last += 1
        self.catalogue = bound(self.catalogue, (name, self.last))
        self.changes = appended(self.changes, (name, what, self.last))
        return what

    def delete(self, name):
        """Delete a name, and return `deleted`, or `refused` if the name is not held."""
        if not holds(self.catalogue, name):
            return "refused"
        self.last += 1
        self.catalogue = unbound(self.catalogue, name)
        self.changes = appended(self.changes, (name, "deleted", self.last))
        return "deleted"

    def publish(self):
        """Publish, and drop the full parts of the changes that end no later than the publication before this one."""
        moments = [moment for page in self.changes for _, _, moment in page]
        parts = sum(moment <= self.at for moment in moments) // self.limit
        if parts:
            self.changes = dropped(self.changes, parts * self.limit)
            self.first, self.begin = self.first + parts, moments[parts * self.limit - 1]
        self.last += 1
        self.at, self.published = self.last, self.catalogue
        return "published"
