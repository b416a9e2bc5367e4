"""What the pictures share: a panel with axes, grid and lines, as SVG. Used by draw_gait.py, draw_walk.py and bench/growth."""
import math

COLOURS = ["#0b6e99", "#c2571a", "#3a8f3a", "#8a4fa3", "#b8860b", "#b03060"]


def tick(span, most):
    """The smallest of 1, 2, 5 times a power of ten that parts the span into at most so many steps."""
    size = 10.0 ** math.floor(math.log10(span / most))
    return next(size * k for k in (1, 2, 5, 10) if span / (size * k) <= most)


def shown(x):
    return f"{x:,.6g}".replace("-", "\u2212")


class Panel:
    """A rectangle of the picture for x from `x[0]` to `x[1]` and y from `y[0]` to `y[1]`."""

    def __init__(self, left, top, width, height, x, y):
        self.left, self.top, self.width, self.height, self.x, self.y = left, top, width, height, x, y
        self.out = []

    def at(self, x, y):
        return (self.left + self.width * (x - self.x[0]) / (self.x[1] - self.x[0]),
                self.top + self.height * (self.y[1] - y) / (self.y[1] - self.y[0]))

    def text(self, x, y, words, more=""):
        self.out.append(f'<text x="{x:.1f}" y="{y:.1f}" {more}>{words}</text>')

    def axes(self, title, x_title, y_title, x_step=None, y_step=None):
        right, bottom = self.left + self.width, self.top + self.height
        x_step = x_step or tick(self.x[1] - self.x[0], self.width / 70)
        y_step = y_step or tick(self.y[1] - self.y[0], self.height / 35)
        for k in range(math.ceil(self.x[0] / x_step - 1e-6), math.floor(self.x[1] / x_step + 1e-6) + 1):
            x, _ = self.at(k * x_step, 0)
            self.out.append(f'<path d="M{x:.1f} {self.top}V{bottom:.1f}" stroke="#e4e4e4"/>')
            self.text(x, bottom + 16, shown(k * x_step), 'text-anchor="middle" fill="#444"')
        for k in range(math.ceil(self.y[0] / y_step - 1e-6), math.floor(self.y[1] / y_step + 1e-6) + 1):
            _, y = self.at(0, k * y_step)
            self.out.append(f'<path d="M{self.left} {y:.1f}H{right:.1f}" stroke="#e4e4e4"/>')
            self.text(self.left - 6, y + 4, shown(k * y_step), 'text-anchor="end" fill="#444"')
        self.out.append(f'<rect x="{self.left}" y="{self.top}" width="{self.width:.1f}" height="{self.height:.1f}" fill="none" stroke="#888"/>')
        self.text(self.left, self.top - 10, title, 'font-size="14"')
        self.text(self.left + self.width / 2, bottom + 34, x_title, 'text-anchor="middle"')
        x, y = self.left - 48, self.top + self.height / 2
        self.text(x, y, y_title, f'text-anchor="middle" transform="rotate(-90 {x:.1f} {y:.1f})"')

    def line(self, points, colour, more=""):
        places = " L".join("{:.1f} {:.1f}".format(*self.at(x, y)) for x, y in points)
        self.out.append(f'<path d="M{places}" stroke="{colour}" fill="none" {more or "stroke-width=" + chr(34) + "2" + chr(34)}/>')

    def arrow(self, start, end, colour):
        """The head of an arrow at `end`, as one comes from `start`."""
        (x0, y0), (x, y) = self.at(*start), self.at(*end)
        turn = math.degrees(math.atan2(y - y0, x - x0))
        self.out.append(f'<path d="M-9 -5L3 0L-9 5Z" fill="{colour}" transform="translate({x:.1f} {y:.1f}) rotate({turn:.1f})"/>')

    def dot(self, x, y, colour, radius=3.5, more=""):
        x, y = self.at(x, y)
        self.out.append(f'<circle cx="{x:.1f}" cy="{y:.1f}" r="{radius}" fill="{colour}" {more}/>')


def legend(left, top, names, more=()):
    """A line of colour and a name, one below the other; then lines of plain words."""
    out = []
    for k, name in enumerate(names):
        y = top + 20 * k
        out.append(f'<path d="M{left} {y - 4}h22" stroke="{COLOURS[k % len(COLOURS)]}" stroke-width="3"/><text x="{left + 30}" y="{y}">{name}</text>')
    for k, words in enumerate(more):
        out.append(f'<text x="{left}" y="{top + 20 * len(names) + 12 + 18 * k}" fill="#444">{words}</text>')
    return out


def picture(width, height, parts):
    head = [f'<svg xmlns="http://www.w3.org/2000/svg" viewBox="0 0 {width:.0f} {height:.0f}" font-family="sans-serif" font-size="12">',
            f'<rect width="{width:.0f}" height="{height:.0f}" fill="white"/>']
    print("\n".join(head + parts + ["</svg>"]))
