"""Where objects lie, by the section "Where a new object goes" of docs/FORMATS.md."""

import bisect
import math


class Places:
    def __init__(self, pages, page_words):
        self.page_words = page_words
        # Of each page the addresses of the objects with a word in it, in order; and the size of each object.
        self.on_page, self.sizes = [[] for _ in range(pages)], {}
        # What shortens a search: all words of a page before this one are taken, and this size doesn't fit.
        self.taken_to = [page * page_words for page in range(pages)]
        self.too_large = [math.inf] * pages

    def pages_of(self, place):
        return range(place // self.page_words, (place + self.sizes[place] - 1) // self.page_words + 1)

    def add(self, place, size):
        self.sizes[place] = size
        for page in self.pages_of(place):
            bisect.insort(self.on_page[page], place)

    def remove(self, place):
        for page in self.pages_of(place):
            self.on_page[page].remove(place)
            self.taken_to[page] = min(self.taken_to[page], max(place, page * self.page_words))
            self.too_large[page] = math.inf
        del self.sizes[place]

    def used_pages(self):
        return sum(1 for objects in self.on_page if objects)

    def bucket(self, size):
        if size > self.page_words // 2:
            return 4
        return sum(size >= least for least in (4, 8, 16))

    def first_free(self, page):
        """The first word of the page that is not taken."""
        at, objects = self.taken_to[page], self.on_page[page]
        i = bisect.bisect_left(objects, at)
        while i < len(objects) and objects[i] == at:
            at, i = at + self.sizes[at], i + 1
        self.taken_to[page] = at
        return at, i

    def hole(self, page, size):
        """The lowest address from which so many words are free in this page of the bucket, or none."""
        at, i = self.first_free(page)
        for place in self.on_page[page][i:]:
            if place - at >= size:
                return at
            at = place + self.sizes[place]
        if (page + 1) * self.page_words - at >= size:
            return at
        self.too_large[page] = size
        return None

    def fit(self, pages, size):
        """The lowest place for an object that isn't large in these pages, or none."""
        for page in pages:
            objects = self.on_page[page]
            has_bucket = objects and self.bucket(self.sizes[objects[0]]) == self.bucket(size) < 4
            at = self.hole(page, size) if has_bucket and size < self.too_large[page] else None
            if at is not None:
                return at
        return None

    def empty_run(self, size):
        """The first word of the lowest run of pages without objects that is just enough, or none."""
        count, length = -(-size // self.page_words), 0
        for page, objects in enumerate(self.on_page):
            length = 0 if objects else length + 1
            if length == count:
                return (page + 1 - count) * self.page_words
        return None
