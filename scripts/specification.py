"""What docs/SPECIFICATION.md has in its tables: routes, refusals, phrases, worked replies; and its limits."""
import re

from scripts.repository import sections

# The bytes of a body, at most, and those of a certificate; the bytes of a head and its fields, at most.
BODY, CERTIFICATE, HEAD, FIELDS = 131072, 65536, 16384, 64
# The last number of an object.
LAST = 2**62
SECTIONS = {int(heading.partition(".")[0]): text for heading, text in sections("SPECIFICATION").items()}
# The methods of each path, as `Allow` lists them.
ROUTES = dict(re.findall(r"^\| `(/[^`]*)` \| `([A-Z, ]+)` \|", SECTIONS[10], flags=re.MULTILINE))
REFUSAL = re.compile(r"^\| (\d+) \| (\w+) \| (\d+) \| `([^`]+)` \|$", flags=re.MULTILINE)
# The name, the status and the detail of each refusal.
REFUSALS = {int(number): (name, int(status), detail) for number, name, status, detail in REFUSAL.findall(SECTIONS[9])}
PHRASES = {int(status): phrase for status, phrase in re.findall(r"\| (\d{3}) \| `([^`]+)` (?=\|)", SECTIONS[12])}
WORKED = re.findall(r"^`(\w+)`: `([A-Z]+ /\S* HTTP/1\.1)`[^\n]*\n```\n(.*?)```$", SECTIONS[12], flags=re.MULTILINE | re.DOTALL)
