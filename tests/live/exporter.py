"""exporter.py PORT [SERIES]: something to scrape: doubles of each kind, a counter, a histogram, a series that
comes and goes each 20 seconds, and so many gauges."""
import http.server
import sys
import time

BEGAN = time.time()
MORE = int(sys.argv[2]) if len(sys.argv) > 2 else 0
SPECIAL = {
    "nan": "NaN", "inf": "+Inf", "minus inf": "-Inf", "zero": "0", "minus zero": "-0", "fraction": "0.1",
    "subnormal": "5e-324", "2^53": "9007199254740992", "2^53 + 2": "9007199254740994", "minus": "-42",
    "greatest": "1.7976931348623157e308",
}


def page():
    passed = int(time.time() - BEGAN)
    yield "# TYPE special gauge"
    for name, value in SPECIAL.items():
        yield f'special{{value="{name}"}} {value}'
    yield "# TYPE steps counter"
    yield f"steps_total {passed}"
    yield "# TYPE delay histogram"
    for bound, each in [("0.1", 1), ("0.5", 3), ("1", 4), ("+Inf", 5)]:
        yield f'delay_bucket{{le="{bound}"}} {passed * each}'
    yield f"delay_count {passed * 5}"
    yield f"delay_sum {passed * 2.25}"
    if int(time.time() / 20) % 2:
        yield 'sometimes{what="comes and goes"} 1'
    for number in range(MORE):
        yield f'load{{shard="{number % 16}",number="{number}"}} {passed * 1000 + number}'


class Exporter(http.server.BaseHTTPRequestHandler):
    def do_GET(self):
        body = ("\n".join(page()) + "\n").encode()
        self.send_response(200)
        self.send_header("Content-Type", "text/plain; version=0.0.4")
        self.send_header("Content-Length", str(len(body)))
        self.end_headers()
        self.wfile.write(body)

    def log_message(self, *_words):
        pass


http.server.ThreadingHTTPServer(("127.0.0.1", int(sys.argv[1])), Exporter).serve_forever()
