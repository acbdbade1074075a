"""What a page says, read by Python's own parser of HTML."""
import base64
import hashlib
import html.parser
import re

FIGURES = ["samples", "first", "last", "least", "greatest", "parts"]


class Page(html.parser.HTMLParser):
    """A page: its elements with their attributes, its rows, of each the series and the figures as they are
    written, and the text of its body without that of figures."""

    def __init__(self, text):
        super().__init__(convert_charrefs=True)
        self.source, self.elements, self.rows, self.text = text, [], [], ""
        self.section = self.within = None
        self.figures = 0
        self.feed(text)
        self.close()
        self.text = re.sub(r"\s+", " ", self.text)

    def handle_starttag(self, tag, attributes):
        attributes = dict(attributes)
        self.elements.append((tag, attributes))
        if tag == "section":
            self.section = attributes.get("id")
        self.figures += tag == "svg"
        if tag == "body":
            self.text = ""
        if self.section == "rows" and tag == "code" and attributes.get("class") == "lbs":
            self.rows.append({"series": ""})
            self.within = ("code", "series")
        if self.section == "rows" and tag == "td" and "data-l" in attributes:
            self.rows[-1][attributes["data-l"]] = ""
            self.within = ("td", attributes["data-l"])

    def handle_startendtag(self, tag, attributes):
        self.elements.append((tag, dict(attributes)))

    def handle_endtag(self, tag):
        self.figures -= tag == "svg"
        if self.within and self.within[0] == tag:
            self.within = None

    def handle_data(self, data):
        if not self.figures:
            self.text += data
        if self.within:
            self.rows[-1][self.within[1]] += data

    def policies(self):
        """What is forbidden, by each element that says so."""
        return [
            attributes["content"] for tag, attributes in self.elements
            if tag == "meta" and attributes.get("http-equiv") == "Content-Security-Policy"
        ]

    def faults(self, form):
        """What a page must not have: a script, a fetch, a way out, a policy that lets these, or comes too
        late; a form only if it is the one that asks for pages."""
        told = []
        front, style = re.match(r"(?s)(.*?)<style>(.*?)</style>", self.source).groups()
        digest = base64.b64encode(hashlib.sha256(style.encode()).digest()).decode()
        wanted = ["default-src 'none'", f"style-src 'sha256-{digest}'", "base-uri 'none'",
                  f"form-action '{'self' if form else 'none'}'"]
        policies = [re.split(r";\s*", policy) for policy in self.policies()]
        if policies != [wanted] or front.find("http-equiv") < front.find("<head>") or "</head>" in front:
            told.append(f"the policy {policies}, wanted {wanted}")
        forms = [(one.get("action"), one.get("method")) for tag, one in self.elements if tag == "form"]
        if forms != ([("/page", "get")] if form else []):
            told.append(f"forms {forms}")
        for tag, attributes in self.elements:
            if tag in ("script", "img", "iframe", "object", "embed", "link", "base", "a") and (
                tag != "a" or not attributes.get("href", "#").startswith("#")
            ):
                told.append(f"<{tag} {attributes}>")
            told += [f"<{tag} {name}>" for name in attributes
                     if name.startswith("on") or name in ("src", "style", "srcset", "formaction")]
        if "<script" in self.source.lower():
            told.append("<script")
        return told
