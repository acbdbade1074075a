"""The table of a script: a row for each work, as Markdown, printed as it comes."""
import os


def milli(value):
    """Milliseconds, to three digits."""
    return f"{value:.2f}" if value < 1 else f"{value:.1f}" if value < 100 else f"{value:,.0f}"


class Table:
    def __init__(self):
        self.missed = 0
        print("| Work | Here | Beside | Ratio | Target |\n|---|---|---|---|---|")

    def title(self, text, beside=""):
        """A row above those of a class: the unit, and what stands beside them."""
        print(f"| **{text}** | | {beside} | | |", flush=True)

    def row(self, work, here, beside="", ratio="", target="", met=True):
        """A row; a target that is not met is told."""
        if not met:
            self.missed += 1
            target = f"{target}, missed"
        print(f"| {work} | {here} | {beside} | {ratio} | {target} |", flush=True)

    def done(self):
        processors, load = os.cpu_count(), os.getloadavg()[0]
        print(f"\nTargets missed: {self.missed}. {processors} processors, load {load:.1f} at the end.")
