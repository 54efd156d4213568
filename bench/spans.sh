#!/usr/bin/env bash
# Measures `bin/lbnfchart serve` on texts of 128 to 1,024 tokens: the time of a session with no
# question, the least of three runs; the peak memory, the kernel's figure once the text is open; and
# how much longer a session with 1,000 questions takes. The last two lines say whether a text of 512
# tokens is charted within 5 seconds, and whether each session stays within three times the size of
# its chart's entries and 32 MB. The status is 1 where one is not so, and 2 where the program fails
# or gives a wrong answer.
set -eu

root=$(cd -- "$(dirname -- "${BASH_SOURCE[0]}")/.." && pwd)

# The first run builds the program, where it has to be built. With no word it writes a line.
"$root/bin/lbnfchart" </dev/null >/dev/null || [[ $? -eq 1 ]] || exit 2

exec python3 - "$root/bin/lbnfchart" <<'PROGRAM'
import pathlib
import random
import subprocess
import sys
import time

PROGRAM = sys.argv[1]
QUESTIONS = 1000
RUNS = 3
MOST_TOKENS, MOST_SECONDS, MOST_MB = 512, 5.0, 32.0

# In the first grammar each span of one token or more is an S, however it is cut. In the second only
# single tokens are, and no longer span is anything. In the third the spans that are an S are the
# nested ones and the empty ones.
EVERY_SPAN = 'Cat. S ::= S S ; One. S ::= "a" ;'
NO_RULE_FITS = 'Cat. S ::= S T ; One. S ::= "a" ; Two. T ::= "b" ;'
BRACKETS = 'W. S ::= "(" S ")" ; E. S ::= ;'
CASES = [
    *(("every span", EVERY_SPAN, tokens) for tokens in (128, 256, 512, 1024)),
    *(("brackets", BRACKETS, tokens) for tokens in (128, 256, 512, 1024)),
    ("no rule fits", NO_RULE_FITS, 512),
]

# An entry has its end and the place, length and room of its list, and a list has two bytes for each
# symbol, of which these grammars have four at most.
ENTRY_BYTES = 8 + 3 * 8 + 4 * 2


def fail(message):
    print(f"bench: {message}", file=sys.stderr)
    sys.exit(2)


def questions(tokens, count):
    """Spans of one token or more, the same in each run."""
    chosen = random.Random(tokens)
    return [sorted(chosen.sample(range(tokens + 1), 2)) for _ in range(count)]


def text_of(grammar, tokens):
    if grammar == BRACKETS:
        return "(" * (tokens // 2) + ")" * (tokens // 2)
    return " ".join(["a"] * tokens)


def script(grammar, tokens, spans):
    text = text_of(grammar, tokens)
    lines = ["script 1", f"grammar {len(grammar)}", grammar, f"open {len(text)}", text]
    lines += [f"has S {first} {end}" for first, end in spans]
    return "".join(f"{line}\n" for line in [*lines, "end"])


def is_derived(grammar, tokens, first, end):
    if grammar == BRACKETS:
        return first + end == tokens
    return grammar == EVERY_SPAN or end == first + 1


def entries(grammar, tokens):
    """How many spans have a symbol. Of the brackets, a span from an S on to its bracket has one too."""
    if grammar == BRACKETS:
        return 2 * tokens
    return tokens * (tokens + 1) // 2 if grammar == EVERY_SPAN else tokens


def replies(grammar, tokens, spans):
    """The replies behind the first two."""
    fits = [is_derived(grammar, tokens, first, end) for first, end in spans]
    return [*("yes" if it else "no" for it in fits), "end"]


def seconds(text, wanted):
    """How long one session takes."""
    began = time.monotonic()
    done = subprocess.run([PROGRAM, "serve"], input=text, stdout=subprocess.PIPE, text=True)
    taken = time.monotonic() - began
    if done.returncode != 0:
        fail(f"the program ended with status {done.returncode}")
    if done.stdout.splitlines()[2:] != wanted:
        fail("the program gave a wrong answer")
    return taken


def peak(text):
    """The most megabytes that the program had when its text was open, before the line `end`."""
    head, end = text[: -len("end\n")], "end\n"
    with subprocess.Popen(
        [PROGRAM, "serve"], stdin=subprocess.PIPE, stdout=subprocess.PIPE, text=True
    ) as child:
        child.stdin.write(head)
        child.stdin.flush()
        child.stdout.readline(), child.stdout.readline()
        status = pathlib.Path(f"/proc/{child.pid}/status").read_text()
        child.communicate(end)
    return int(status.partition("VmHWM:")[2].split()[0]) / 1024


def measure(grammar, tokens, count):
    spans = questions(tokens, count)
    wanted = replies(grammar, tokens, spans)
    return min(seconds(script(grammar, tokens, spans), wanted) for _ in range(RUNS))


def main():
    print(f"{'text':<14}{'tokens':>8}{'seconds':>10}{'peak MB':>10}{f'{QUESTIONS} questions, s':>20}")
    slowest, in_memory = 0.0, True
    for name, grammar, tokens in CASES:
        taken, asked = measure(grammar, tokens, 0), measure(grammar, tokens, QUESTIONS)
        most = peak(script(grammar, tokens, []))
        print(f"{name:<14}{tokens:>8}{taken:>10.3f}{most:>10.1f}{asked - taken:>20.3f}", flush=True)
        own = entries(grammar, tokens) * ENTRY_BYTES / 2**20
        in_memory = in_memory and most <= 3 * own + MOST_MB
        if tokens == MOST_TOKENS:
            slowest = max(slowest, taken)
    in_time = slowest <= MOST_SECONDS
    print(f"{MOST_TOKENS} tokens within {MOST_SECONDS:g} seconds: {'yes' if in_time else 'NO'} ({slowest:.3f} s)")
    print(f"memory within three times the entries and {MOST_MB:g} MB: {'yes' if in_memory else 'NO'}")
    sys.exit(0 if in_time and in_memory else 1)


main()
PROGRAM
