"""What the pictures are drawn with: the program, and lines, boxes and words in the colours of a light or a dark page."""
import os
from xml.sax.saxutils import escape

ROOT = os.path.normpath(os.path.join(os.path.dirname(os.path.abspath(__file__)), "..", ".."))
PROGRAM = os.path.abspath(os.path.join(os.environ.get("BUILD") or os.path.join(ROOT, "build"), "dfu"))
STYLE = """
  text { font: 13px system-ui, -apple-system, 'Segoe UI', 'DejaVu Sans', sans-serif; fill: #1f2328; }
  .back { fill: #ffffff; }
  .head { font-weight: 600; font-size: 15px; }
  .small { font-size: 12px; fill: #59636e; }
  .lane, .rule { stroke: #d1d9e0; stroke-width: 1; }
  .arrow { stroke: #1f2328; stroke-width: 1.5; fill: none; marker-end: url(#tip); }
  .join { marker-end: none; }
  .lost { stroke: #cf222e; stroke-dasharray: 5 4; marker-end: none; }
  .lost-word, .bad { fill: #cf222e; }
  .cross { stroke: #cf222e; stroke-width: 2; }
  .tip { fill: #1f2328; }
  .band { fill: #eef1f4; }
  .box { fill: #ddf4ff; stroke: #0969da; }
  .idle { fill: #eef1f4; stroke: #59636e; }
  .error { fill: #ffebe9; stroke: #cf222e; }
  .write { fill: #fff8c5; stroke: #9a6700; }
  .new { fill: #dafbe1; stroke: #1a7f37; }
  @media (prefers-color-scheme: dark) {
    text { fill: #f0f6fc; }
    .back { fill: #0d1117; }
    .small { fill: #9198a1; }
    .lane, .rule { stroke: #3d444d; }
    .arrow { stroke: #f0f6fc; }
    .lost, .cross { stroke: #ff7b72; }
    .lost-word, .bad { fill: #ff7b72; }
    .tip { fill: #f0f6fc; }
    .band { fill: #1c2128; }
    .box { fill: #12304f; stroke: #58a6ff; }
    .idle { fill: #262c36; stroke: #9198a1; }
    .error { fill: #471a1a; stroke: #ff7b72; }
    .write { fill: #3d2f05; stroke: #d29922; }
    .new { fill: #0f3a20; stroke: #3fb950; }
  }
"""


class Picture:
    """An SVG file that grows; places are in pixels, from the upper left."""

    def __init__(self, width, height, title):
        self.parts = [
            f'<svg xmlns="http://www.w3.org/2000/svg" viewBox="0 0 {width} {height}" width="{width}" height="{height}" role="img">',
            f"<title>{escape(title)}</title>",
            f"<style>{STYLE}</style>",
            '<defs><marker id="tip" viewBox="0 0 10 10" refX="9" refY="5" markerWidth="7" markerHeight="7" orient="auto-start-reverse">'
            '<path class="tip" d="M0 0 L10 5 L0 10 z"/></marker></defs>',
            f'<rect class="back" width="{width}" height="{height}"/>',
        ]

    def words(self, x, y, text, kind="", anchor="start"):
        self.parts.append(f'<text x="{x}" y="{y}" class="{kind}" text-anchor="{anchor}">{escape(text)}</text>')

    def line(self, x, y, to_x, to_y, kind):
        self.parts.append(f'<line x1="{x}" y1="{y}" x2="{to_x}" y2="{to_y}" class="{kind}"/>')

    def path(self, steps, kind="arrow"):
        self.parts.append(f'<path d="{steps}" class="{kind}"/>')

    def rect(self, x, y, width, height, kind, round_by=0):
        self.parts.append(f'<rect x="{x}" y="{y}" width="{width}" height="{height}" rx="{round_by}" class="{kind}"/>')

    def box(self, x, y, width, text, kind="box", height=24):
        """A box with its words in the middle; x and y are its middle."""
        self.rect(x - width / 2, y - height / 2, width, height, kind, 6)
        for number, part in enumerate(text.split("\n")):
            self.words(x, y + 4.5 + 16 * (number - text.count("\n") / 2), part, "", "middle")

    def cross(self, x, y):
        self.path(f"M{x - 6} {y - 6} L{x + 6} {y + 6} M{x - 6} {y + 6} L{x + 6} {y - 6}", "cross")

    def text(self):
        return "\n".join(self.parts) + "\n</svg>\n"
