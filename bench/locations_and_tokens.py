#!/usr/bin/env python3
"""Time of a location and of a verification, as ratios to one SHA-256 of the same message, and for twice the length.

What is timed is `dl_location::read_location` and `dl_token::verify`, for paths of 500 and of 1,000 bytes. A small program
that only calls them stands below; `measured.py` has it proved, built and run. The program goes many times over short loops
of each call, in turn, and the best time of each counts, all in this one invocation. The status is 1 where twice the length
takes more than 2.2 times the time.
"""
import sys

from measured import filled, told

USED = ("anyhow", "dl_base", "dl_location", "dl_token", "sha2")
LENGTHS = (500, 1_000)
ROUNDS = 300
CALLS = 100
MOST = 2.2

# It prints a line for each loop: the name of the call, the length of the path, nanoseconds a call, and a sum of the answers.
# Each call of a loop gets other bytes than the one before, so that none can be left out.
PROGRAM = r"""//! Times of locations, of verifications and of SHA-256 over the same messages.
#![tactic(auto)]

use dl_base::{LinkNo, Name, Path, is_name, is_path};
use dl_location::read_location;
use dl_token::{Verdict, link_text, token, verify};
use sha2::{Digest, Sha256};
use std::alloc::{AllocError, Global};
use std::time::Instant;

const CALLS: u32 = @CALLS@;

const LINK: LinkNo = LinkNo { tx: 1, k: 1 };

const EXPIRY: u64 = 1_000_000_000;

fn turned(i: u32) -> u8 {
    b'a' + (i % 2) as u8
}

fn turn(bytes: &mut [u8], i: u32) {
    if let Some(last) = bytes.last_mut() {
        *last = turned(i);
    }
}

// The bytes of all paths that were read.
fn locations(alloc: Global, server: &Name, text: &mut [u8]) -> u64 {
    let mut sum = 0u64;
    for i in 0..CALLS {
        turn(text, i);
        if let Ok((_, path)) = read_location(alloc, server, text) {
            sum = sum.wrapping_add(path.bytes().len() as u64);
        }
    }
    sum
}

// How many tokens were good. The key has another last byte each time.
fn verifications(path: &Path) -> u64 {
    let mut key = [7u8; 32];
    key[31] = turned(0);
    let even = token(&key, path, LINK, EXPIRY);
    key[31] = turned(1);
    let odd = token(&key, path, LINK, EXPIRY);
    let mut sum = 0u64;
    for i in 0..CALLS {
        key[31] = turned(i);
        let given = if i % 2 == 0 { &even } else { &odd };
        if verify(&key, path, LINK, u64::from(i), given) == Verdict::Good {
            sum = sum.wrapping_add(1);
        }
    }
    sum
}

fn digests(message: &mut [u8]) -> u64 {
    let mut sum = 0u64;
    for i in 0..CALLS {
        turn(message, i);
        let digest = Sha256::digest(&*message);
        sum = sum.wrapping_add(u64::from(digest[0]));
    }
    sum
}

fn path_bytes(alloc: Global, length: usize) -> Result<Vec<u8>, AllocError> {
    let mut bytes = Vec::new(alloc);
    for i in 0..length {
        bytes.push(if i % 10 == 0 { b'/' } else { b'x' })?;
    }
    Ok(bytes)
}

fn text_of(alloc: Global, path: &[u8]) -> Result<Vec<u8>, AllocError> {
    let mut text = Vec::from_slice(alloc, b"http://fs1")?;
    text.extend_from_slice(path)?;
    Ok(text)
}

// What a token is made over: the path, the printed link and the expiry, with zeros between them.
fn message_of(alloc: Global, path: &[u8]) -> Result<Vec<u8>, AllocError> {
    let mut message = Vec::from_slice(alloc, path)?;
    message.push(0)?;
    message.extend_from_slice(link_text(LINK).bytes())?;
    message.push(0)?;
    message.extend_from_slice(b"1000000000")?;
    Ok(message)
}

fn tell(
    rt: &HostRuntime,
    what: &str,
    length: usize,
    start: &Instant,
    sum: u64,
) -> anyhow::Result<()> {
    let nanoseconds = start.elapsed(rt)?.as_nanos() / u128::from(CALLS);
    println!(rt; "{what} {length} {nanoseconds} {sum}")?;
    Ok(())
}

fn measure(rt: &HostRuntime, length: usize) -> anyhow::Result<()> {
    let alloc = rt.alloc();
    let bytes = path_bytes(alloc, length)?;
    if !is_name(b"fs1") || !is_path(bytes.as_slice()) {
        return Ok(());
    }
    let server = Name::of(alloc, b"fs1")?;
    let path = Path::of(alloc, bytes.as_slice())?;
    let mut text = text_of(alloc, bytes.as_slice())?;
    let mut message = message_of(alloc, bytes.as_slice())?;
    let start = Instant::now(rt)?;
    let sum = locations(alloc, &server, text.as_mut_slice());
    tell(rt, "location", length, &start, sum)?;
    let start = Instant::now(rt)?;
    let sum = digests(text.as_mut_slice());
    tell(rt, "location-sha2", length, &start, sum)?;
    let start = Instant::now(rt)?;
    let sum = verifications(&path);
    tell(rt, "verification", length, &start, sum)?;
    let start = Instant::now(rt)?;
    let sum = digests(message.as_mut_slice());
    tell(rt, "verification-sha2", length, &start, sum)
}

fn main(rt: HostRuntime) -> anyhow::Result<()> {
    for _ in 0..@ROUNDS@ {
        measure(&rt, @FIRST@)?;
        measure(&rt, @SECOND@)?;
    }
    Ok(())
}
"""


def best(lines):
    """The best time of each call at each length; each location must have been read, and each token good."""
    times = {}
    for what, length, nanoseconds, total in lines:
        if total != {"location": str(CALLS * int(length)), "verification": str(CALLS)}.get(what, total):
            sys.exit("a %s for a path of %s bytes was refused" % (what, length))
        key = what, int(length)
        times[key] = min(times.get(key, int(nanoseconds)), int(nanoseconds))
    if len(lines) != 8 * ROUNDS or len(times) != 8:
        sys.exit("the program told %d lines" % len(lines))
    return times


def main():
    values = {"CALLS": CALLS, "ROUNDS": ROUNDS, "FIRST": LENGTHS[0], "SECOND": LENGTHS[1]}
    times = best(told(USED, filled(PROGRAM, values)))
    is_slow = False
    for what in ("location", "verification"):
        for length in LENGTHS:
            spent, alone = times[what, length], times[what + "-sha2", length]
            print("%s, path of %d bytes: %d ns, %.2f times one SHA-256 of the same message (%d ns)" % (what, length, spent, spent / alone, alone))
        ratio = times[what, LENGTHS[1]] / times[what, LENGTHS[0]]
        is_slow = is_slow or ratio > MOST
        print("%s, twice the length: %.2f times the time, which is to be at most %.1f" % (what, ratio, MOST))
    sys.exit(1 if is_slow else 0)


if __name__ == "__main__":
    main()
