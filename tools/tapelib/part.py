"""A picture of a part of a run: some records with their own numbers, the last one marked."""
from . import draw


def picture(run, first, last, title, marked):
    """The SVG text of the records first to last; the last one has a red ring, the marked words are its own."""
    drawing = draw.Picture(run, first, last)
    row = drawing.last_row
    x, y = row.x(last), row.lanes[row.lane(run.events[last - 1].worker)] + draw.BAR / 2
    drawing.parts.append(f'<circle cx="{x:g}" cy="{y:g}" r="11" fill="none" stroke="{draw.RED}" stroke-width="2.5"/>')
    return draw.page(drawing, title, marked)
