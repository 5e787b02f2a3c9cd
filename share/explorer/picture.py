"""Plots as SVG, by text alone: panels beside one another, each with points and lines over two axes."""
import html
import math

WIDTH, HEIGHT, LEFT, RIGHT, TOP, BOTTOM = 420, 300, 62, 18, 34, 48
COLOURS = ("#1f5fa8", "#c8511b", "#2f8f4e", "#8a4fa3", "#a87f12", "#4c9aa8", "#b0406a", "#6b6b6b", "#5a7d1f", "#3b3b9a")

# The names of axes, with their units.
BOUNDS = {"rel": "bound, parts per million", "ham": "bound, bits"}
AREAS = {"ands": "AND nodes", "luts4": "4-LUTs", "luts6": "6-LUTs", "literals": "literals", "cells": "area of the cells"}


def bound_name(metric):
    """The name of the axis of a metric's bounds."""
    return BOUNDS.get(metric.partition("/")[0], "bound")


class Panel:
    """One plot: its title, the names of its axes, and what is drawn in it. A bound's axis is that of log2(1 + bound)."""

    def __init__(self, title, across, up, is_bound):
        self.title, self.across, self.up, self.is_bound = title, across, up, is_bound
        self.points, self.lines = [], []

    def place(self, value):
        return math.log2(1 + value) if self.is_bound else value

    def spans(self):
        """The ends of both axes."""
        pairs = [*self.points, *(it for _, line, _ in self.lines for it in line)] or [(0, 0)]
        low, high = (f(self.place(x) for x, _ in pairs) for f in (min, max))
        top = max(y for _, y in pairs)
        return low, high if high > low else low + 1, 0, top if top > 0 else 1

    def at(self, pair, spans):
        low, high, bottom, top = spans
        x = LEFT + (self.place(pair[0]) - low) / (high - low) * (WIDTH - LEFT - RIGHT)
        y = HEIGHT - BOTTOM - (pair[1] - bottom) / (top - bottom) / 1.05 * (HEIGHT - TOP - BOTTOM)
        return x, y

    def marks_across(self, spans):
        if not self.is_bound:
            return steps(spans[1])
        values = sorted({x for x, _ in self.points} | {x for _, line, _ in self.lines for x, _ in line})
        return values if len(values) < 8 else values[::-(-len(values) // 7)]

    def drawn(self, left):
        """The panel as elements, so far from the left."""
        spans = self.spans()
        found = ['<g transform="translate(%d 0)">' % left, text(WIDTH / 2, 18, self.title, "middle", 13)]
        found += [text((LEFT + WIDTH) / 2, HEIGHT - 8, self.across, "middle"), turned_text(16, (TOP + HEIGHT - BOTTOM) / 2, self.up)]
        for value in steps(spans[3]):
            y = self.at((0, value), (0, 1, *spans[2:]))[1]
            found += [line([(LEFT, y), (WIDTH - RIGHT, y)], "#dddddd", 1), text(LEFT - 6, y + 4, told(value), "end")]
        for value in self.marks_across(spans):
            x = self.at((value, 0), spans)[0]
            found += [line([(x, HEIGHT - BOTTOM), (x, HEIGHT - BOTTOM + 4)], "#333333", 1),
                      text(x, HEIGHT - BOTTOM + 17, told(value), "middle")]
        found.append(line([(LEFT, TOP), (LEFT, HEIGHT - BOTTOM), (WIDTH - RIGHT, HEIGHT - BOTTOM)], "#333333", 1))
        for pair in sorted(set(self.points)):
            found.append('<circle cx="%.1f" cy="%.1f" r="2.2" fill="#888888" fill-opacity="0.45"/>' % self.at(pair, spans))
        for number, (name, pairs, is_stepped) in enumerate(self.lines):
            found += self.curve(number, name, pairs, is_stepped, spans)
        return found + ["</g>"]

    def curve(self, number, name, pairs, is_stepped, spans):
        colour, places = COLOURS[number % len(COLOURS)], [self.at(it, spans) for it in pairs]
        path = places
        if is_stepped:
            path = [it for one, behind in zip(places, places[1:]) for it in (one, (behind[0], one[1]))] + places[-1:]
        found = [line(path, colour, 1.8)]
        if len(places) < 40:
            found += ['<circle cx="%.1f" cy="%.1f" r="3" fill="%s"/>' % (*it, colour) for it in places]
        if name:
            y = TOP + 6 + 15 * number
            found += [line([(WIDTH, y), (WIDTH + 16, y)], colour, 1.8), text(WIDTH + 21, y + 4, name, "start")]
        return found


def steps(top):
    """About five round numbers from 0 to the top."""
    size = 10 ** math.floor(math.log10(top))
    step = next(size * it for it in (0.1, 0.2, 0.5, 1, 2, 5) if top / (size * it) <= 6)
    return [step * it for it in range(int(top / step + 0.001) + 1)]


def told(value):
    value = round(value, 6)
    if value == int(value):
        return str(int(value)) if value < 10 ** 7 else "%.3g" % value
    return "%g" % value


def line(places, colour, width):
    return '<polyline points="%s" fill="none" stroke="%s" stroke-width="%g"/>' % (
        " ".join("%.1f,%.1f" % it for it in places), colour, width)


def text(x, y, words, anchor, size=11):
    return '<text x="%.1f" y="%.1f" text-anchor="%s" font-size="%d">%s</text>' % (x, y, anchor, size, html.escape(words))


def turned_text(x, y, words):
    return '<text transform="translate(%.1f %.1f) rotate(-90)" text-anchor="middle" font-size="11">%s</text>' % (
        x, y, html.escape(words))


def svg(panels, beside=0):
    """The panels beside one another, with room for names of curves behind each."""
    width = (WIDTH + beside) * len(panels)
    found = ['<?xml version="1.0" encoding="UTF-8"?>',
             '<svg xmlns="http://www.w3.org/2000/svg" width="%d" height="%d" viewBox="0 0 %d %d" font-family="sans-serif">'
             % (width, HEIGHT, width, HEIGHT), '<rect width="100%" height="100%" fill="#ffffff"/>']
    for number, panel in enumerate(panels):
        found += panel.drawn(number * (WIDTH + beside))
    return "\n".join(found + ["</svg>", ""])
