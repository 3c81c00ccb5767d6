#!/usr/bin/env python3
"""Lexemes a second of SQL text that is read and printed, and the ratio of times for twice the length.

What is timed is `sql_syntax::parse`, and `sql_syntax::print` of what it gave, for texts of 1,000 and of 60,000 bytes of each
kind: one long literal, long sums, nested signs and nested parentheses up to their bounds, many tuples, many joined sources. The
ratios are those of 2,000 to 1,000 and of 60,000 to 30,000 bytes. Texts of 65,536 bytes of nothing but signs or parentheses are
read too, which are refused at a bound, and so are texts of that length of each kind; none may exhaust the stack.

A small program that only calls the two stands below; `measured.py` has it proved, built and run. The program goes many times over
all texts, all in this one invocation. Of reading the best time counts. A print is timed with the one parse before it, and right
behind it three times as many prints are: half of what these take more is the time of the prints alone, of which the median counts.
The status is 1 where twice the length takes more than 2.2 times the time to read or to print, or where a text is not answered as
it has to be. A print that takes less than a fiftieth of the time of reading the same text, as that of parentheses, which are not
printed, is too short to be told apart from the parse. On a busy machine the ratios come out too high, since a text of 60,000 bytes
has a tree of some megabytes.
"""
import statistics
import sys

from measured import filled, told

USED = ("anyhow", "dl_base", "sql_lex", "sql_syntax")
LENGTHS = (1_000, 2_000, 30_000, 60_000, 65_536)
TWICE = ((1_000, 2_000), (30_000, 60_000))
ROUNDS = 40
BYTES = 60_000
MOST = 2.2
SHORT = 50
INSERT = "INSERT INTO t VALUES ("
DELETE = "DELETE FROM t WHERE "
SELECT = "SELECT * FROM t"

# It reads texts, a line each. In each round it prints of each text its number, its lexemes, the place of a fault of syntax or 0,
# whether what is printed is read and printed so again, how many calls are timed at once, and nanoseconds of so many calls of parse,
# of so many calls of print behind one of parse, and of three times as many calls of print behind one of parse.
PROGRAM = r"""//! Times of reading and of printing SQL text.
#![tactic(auto)]

use dl_base::Text;
use sql_lex::lex;
use sql_syntax::{ParseFault, parse, print};
use std::alloc::Global;
use std::io::BufRead;
use std::time::Instant;

const BYTES: usize = @BYTES@;

fn lexemes(alloc: Global, text: &[u8]) -> usize {
    match lex(alloc, text) {
        Ok(lexemes) => lexemes.len(),
        Err(_) => 0,
    }
}

fn place(alloc: Global, text: &[u8]) -> u64 {
    match parse(alloc, text) {
        Err(ParseFault::Syntax(place)) => place,
        _ => 0,
    }
}

// What is printed of a text.
fn reprinted(alloc: Global, text: &[u8]) -> Option<Text> {
    match parse(alloc, text) {
        Ok(stmt) => print(alloc, &stmt).ok(),
        Err(_) => None,
    }
}

// Whether what is printed of a text is printed so again.
fn is_again(alloc: Global, text: &[u8]) -> bool {
    let Some(once) = reprinted(alloc, text) else {
        return false;
    };
    match reprinted(alloc, once.bytes()) {
        Some(twice) => once.bytes() == twice.bytes(),
        None => false,
    }
}

// How many of the calls gave a statement.
fn read(alloc: Global, text: &[u8], calls: usize) -> usize {
    let mut given = 0usize;
    for _ in 0..calls {
        if parse(alloc, text).is_ok() {
            given = given.wrapping_add(1);
        }
    }
    given
}

// How many bytes the calls printed.
fn printed(alloc: Global, text: &[u8], calls: usize) -> usize {
    let mut bytes = 0usize;
    let Ok(stmt) = parse(alloc, text) else {
        return 0;
    };
    for _ in 0..calls {
        if let Ok(text) = print(alloc, &stmt) {
            bytes = bytes.wrapping_add(text.bytes().len());
        }
    }
    bytes
}

fn tell(rt: &HostRuntime, number: usize, text: &[u8]) -> anyhow::Result<()> {
    let alloc = rt.alloc();
    let calls = (BYTES / text.len().max(1)).max(1);
    let count = lexemes(alloc, text);
    let fault = place(alloc, text);
    let again = is_again(alloc, text);
    let start = Instant::now(rt)?;
    let given = read(alloc, text, calls);
    let reading = start.elapsed(rt)?.as_nanos();
    let start = Instant::now(rt)?;
    let once = printed(alloc, text, calls);
    let printing = start.elapsed(rt)?.as_nanos();
    let start = Instant::now(rt)?;
    let thrice = printed(alloc, text, calls.wrapping_mul(3));
    let more = start.elapsed(rt)?.as_nanos();
    println!(rt; "{number} {count} {fault} {again} {calls} {reading} {printing} {more} {given} {once} {thrice}")?;
    Ok(())
}

fn main(rt: HostRuntime) -> anyhow::Result<()> {
    let mut texts = Vec::new(rt.alloc());
    for line in rt.reader().split(rt.alloc(), b'\n') {
        texts.push(line?)?;
    }
    for _ in 0..@ROUNDS@ {
        let mut number = 0usize;
        for text in texts.iter() {
            tell(&rt, number, text.as_slice())?;
            number = number.wrapping_add(1);
        }
    }
    Ok(())
}
"""


def repeated(first, between, part, length, last=""):
    """`first`, then parts of at most 513 bytes with `between` before each but the first, and `last`: about so many bytes."""
    text = []
    left = length - len(first) - len(last)
    while left > len(between) + 2:
        one = part(min(left - len(between), 513))
        text.append(one)
        left -= len(one) + len(between)
    return first + between.join(text) + last


def sums(most):
    return "1" + "+1" * min((most - 1) // 2, 255)


def nested(most):
    depth = min((most - 1) // 2, 256)
    return "(" * depth + "1" + ")" * depth


def signs(most):
    return "-" * min(most - 1, 255) + "1"


def tuples(length):
    return INSERT + "1,2)" + ",(1,2)" * ((length - len(INSERT) - 4) // 6)


def joins(length):
    return SELECT + " JOIN a ON 1" * ((length - len(SELECT)) // 12)


KINDS = {
    "one literal": lambda length: INSERT + "'" + "x" * (length - len(INSERT) - 3) + "')",
    "sums": lambda length: repeated(INSERT, ",", sums, length, ")"),
    "nested parentheses": lambda length: repeated(INSERT, ",", nested, length, ")"),
    "nested signs": lambda length: repeated(INSERT, ",", signs, length, ")"),
    "tuples": tuples,
    "joins": joins,
}

# The texts that are refused, and where: behind 255 signs, and behind 256 parentheses.
REFUSED = {
    "signs alone": (DELETE + "-" * (65_536 - len(DELETE)), len(DELETE) + 256),
    "parentheses alone": (DELETE + "(" * (65_536 - len(DELETE)), len(DELETE) + 257),
}


def measures(lines, count):
    """Of each text its lexemes, its place, whether it is printed so again, and nanoseconds of one call of parse and of print."""
    rounds = [[] for _ in range(count)]
    for line in lines:
        rounds[int(line[0])].append(line)
    if any(len(found) != ROUNDS for found in rounds):
        sys.exit("the program told %d lines" % len(lines))
    return [measure(found) for found in rounds]


def measure(rounds):
    reading, printing = [], []
    for line in rounds:
        calls = int(line[4])
        parses, once, thrice = map(int, line[5:8])
        reading.append(parses / calls)
        printing.append((thrice - once) / (2 * calls))
    lexemes, place = map(int, rounds[0][1:3])
    return lexemes, place, all(line[3] == "true" for line in rounds), min(reading), statistics.median(printing)


def main():
    keys = [(kind, length) for kind in KINDS for length in LENGTHS]
    texts = [KINDS[kind](length) for kind, length in keys] + [text for text, _ in REFUSED.values()]
    source = filled(PROGRAM, {"BYTES": BYTES, "ROUNDS": ROUNDS})
    answers = measures(told(USED, source, "".join(text + "\n" for text in texts)), len(texts))
    status = 0
    for (kind, (_, place)), answer in zip(REFUSED.items(), answers[len(keys):]):
        print("%s, 65,536 bytes: refused at %d" % (kind, answer[1]))
        status |= answer[1] != place
    by_key = dict(zip(keys, answers))
    sizes = dict(zip(keys, map(len, texts)))
    for kind in KINDS:
        for length in LENGTHS:
            lexemes, place, again, reading, printing = by_key[kind, length]
            status |= place != 0 or not again or abs(sizes[kind, length] - length) > 12
            print("%s, %d bytes: %d lexemes, read in %d ns (%.0f lexemes a second), printed in %d ns" % (
                kind, sizes[kind, length], lexemes, reading, lexemes * 1e9 / reading, printing))
        for less, twice in TWICE:
            once, double = by_key[kind, less], by_key[kind, twice]
            reading = double[3] / once[3]
            printing = double[4] / once[4] if once[4] * SHORT >= once[3] else None
            status |= reading > MOST or printing is not None and not 0 < printing <= MOST
            print("%s, %d bytes for %d: %.2f times the time to read, %s to print; at most %.1f is wanted" % (
                kind, twice, less, reading, "too short a time" if printing is None else "%.2f times" % printing, MOST))
    sys.exit(status)


if __name__ == "__main__":
    main()
