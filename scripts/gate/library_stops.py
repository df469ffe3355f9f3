"""Stops a desk over disks in memory, and has one of them fail once, over the crates as they are, without proof: python3 -m scripts.gate.library_stops

`rt try` runs a small program over a copy of the crates. In it the first write of newNonce stops the disks, and a desk that is opened again gives the
nonce that was undone, which serves once; then `Store::load` and `check` read its tables whole. And each call that newNonce makes to the log's
disk fails once, in turn: the desk, which goes on over that disk, says that it is closed until it is opened again. scripts/files/stops.py does this to
the program `desk`, which ends where a disk fails.
"""
import json
import os
import re
import subprocess
import sys
import tempfile

from scripts.gate.small_program import write_crates
from scripts.repository import write
from scripts.trying import KEY, finish, line_of, nonce_text, see

CRATES = "desk_model store_api desk desk_store desk_files app_batch store_book sqlite sqlite_disk"

# What a desk says whose disk stops in its first call, and what it says that is opened again: the first nonce, an account by it, and
# that the nonce is spent; then what its tables are (docs/SPECIFICATION.md, 16).
SERVES_ONCE = [
    "fault 21 device",
    "204 - AAAAAAAAAAEAAAAAAAAAAAAAAAAAAAAA -",
    "201 https://ca.example/account/1 AAAAAAAAAAIAAAAAAAAAAAAAAAAAAAAA "
    '{"contact":["mailto:a@b.example"],"orders":"https://ca.example/account/1/orders","status":"valid"}',
    "400 - AAAAAAAAAAMAAAAAAAAAAAAAAAAAAAAA "
    '{"detail":"the nonce is not open","status":400,"type":"urn:ietf:params:acme:error:badNonce"}',
    "accounts: 1, orders: 0, wrong statuses: 0",
]
CLOSED = ["fault 21 device", "fault 22 reopen", "fault 22 reopen"]
MAIN = r"""
//! A desk over two disks in memory, which stop, or of which one fails once and goes on.
#![tactic(auto)]
ghost use Rattle.std.specs.Prelude.{◌+◌, ◌&&◌, not};

use app_batch::batch_line;
use desk::Desk;
use desk_files::{close_desk, leave_from, make_desk, open_desk};
use desk_model::{Clock, Policy};
use desk_store::Store;
use sqlite::{Alter, Connection, FileStore, Options};
use sqlite_disk::{Disk, Files, Memory, Tally};
use std::alloc::Global;
use std::io::{self, BufRead, Write};
use std::process::ExitCode;
use store_api::Storage;
use store_book::check;

// What the log's first header is salted with.
const SALT: u64 = 7;

// More calls than a disk is asked.
const ALL: u64 = u64::MAX;

// ---- A disk that passes so many calls on and fails the next, and then passes on each one after or, where it stops, none.

#[derive(Drop)]
struct Failing<D: Disk> {
    inner: D,
    passed: u64,
    fails_at: u64,
    stops: bool,
    refused: u64,
    sync_refused: bool,
}

impl<D: Disk> Failing<D> {
    fn new(inner: D, fails_at: u64, stops: bool) -> Failing<D> {
        Failing { inner, passed: 0, fails_at, stops, refused: 0, sync_refused: false }
    }

    // Counts a call, and fails one that is not passed on.
    fn count(&mut self) -> io::Result<()> {
        let is_passed = self.passed < self.fails_at || self.passed > self.fails_at && !self.stops;
        self.passed = self.passed.saturating_add(1);
        if is_passed {
            return Ok(());
        }
        self.refused = self.refused.saturating_add(1);
        Err(io::Error::other("the disk fails"))
    }
}

impl<D: Disk> Disk for Failing<D> {
    ghost seen = { λ d. D.Disk.seen d.inner };

    ghost may_leave = { λ d. D.Disk.may_leave d.inner };

    ghost is_usable = { λ d. D.Disk.is_usable d.inner && not d.sync_refused };

    ghost faults = { λ d. D.Disk.faults d.inner + d.refused };

    ghost tally_of = { λ d. D.Disk.tally_of d.inner };

    ghost is_rotten = { λ d. D.Disk.is_rotten d.inner };

    ghost key_of = { λ d. D.Disk.key_of d.inner };

    ghost is_frozen = { λ d. D.Disk.is_frozen d.inner };

    ghost is_clean = { λ d. D.Disk.is_clean d.inner };

    ghost is_fair = { λ d. D.Disk.is_fair d.inner };

    ghost fair_if_clean = { λ d. D.Disk.fair_if_clean d.inner };

    ghost seen_may_stay = { λ d. D.Disk.seen_may_stay d.inner };

    ghost is_mixing = { λ d. D.Disk.is_mixing d.inner };

    fn mixes(&self) -> bool {
        self.inner.mixes()
    }

    fn key(&self) -> u64 {
        self.inner.key()
    }

    fn tally(&self) -> Tally {
        self.inner.tally()
    }

    fn may_be_used(&self) -> bool {
        self.inner.may_be_used() && !self.sync_refused
    }

    fn len(&mut self) -> io::Result<usize> {
        self.count()?;
        self.inner.len()
    }

    fn read_at(&mut self, at: usize, buf: &mut [u8]) -> io::Result<()> {
        self.count()?;
        self.inner.read_at(at, buf)
    }

    fn read_checked(&mut self, key: u64, want: u64, at: usize, buf: &mut [u8]) -> io::Result<()> {
        self.count()?;
        self.inner.read_checked(key, want, at, buf)
    }

    fn write_at(&mut self, at: usize, bytes: &[u8]) -> io::Result<()> {
        self.count()?;
        self.inner.write_at(at, bytes)
    }

    fn set_len(&mut self, len: usize) -> io::Result<()> {
        self.count()?;
        self.inner.set_len(len)
    }

    fn sync(&mut self) -> io::Result<()> {
        if let Err(error) = self.count() {
            self.sync_refused = true;
            return Err(error);
        }
        self.inner.sync()
    }
}

// ---- A desk over two disks, opened for an errand and left.

#[derive(Drop)]
enum Errand<'a> {
    // A desk is made.
    Make(Policy),
    // The desk is opened, and asked lines of a batch.
    Ask(&'a [&'a [u8]]),
    // The desk's tables are opened, read whole and checked.
    Count,
}

// Does an errand, and leaves the disks without a last word. Behind `out` comes a line for each reply or fault, or what was counted.
fn visit<D: Disk + Drop>(alloc: Global, files: Files<D>, errand: Errand<'_>, out: &mut Vec<u8>) -> Option<Files<D>> {
    match Connection::open_files(alloc, files, Options::new(SALT)) {
        Ok(conn) => Some(visit_database(alloc, conn, errand, out)?.close()),
        Err((_, left)) => Some(left.into_files()),
    }
}

fn visit_database<D: Disk + Drop>(
    alloc: Global,
    conn: Connection<FileStore<D>>,
    errand: Errand<'_>,
    out: &mut Vec<u8>,
) -> Option<FileStore<D>> {
    match errand {
        Errand::Make(policy) => {
            let desk = make_desk(alloc, conn, policy, Clock::at(0)).ok()?;
            Some(close_desk(desk).into_store())
        }
        Errand::Ask(lines) => {
            let mut desk = open_desk(alloc, conn).ok()?;
            for &line in lines {
                ask(alloc, &mut desk, line, out)?;
            }
            Some(close_desk(desk).into_store())
        }
        Errand::Count => {
            let mut store = Store::open(alloc, conn).ok()?;
            count(alloc, &mut store, out)?;
            Some(leave_from(store))
        }
    }
}

fn ask<K: Storage + Drop>(alloc: Global, desk: &mut Desk<K>, line: &[u8], out: &mut Vec<u8>) -> Option<()> {
    match batch_line(alloc, desk, line) {
        Ok(text) => out.write_all(text.as_slice()).ok()?,
        Err(fault) => write!(out, "{fault}").ok()?,
    }
    out.push(b'\n').ok()
}

fn count<S: Alter>(alloc: Global, store: &mut Store<S>, out: &mut Vec<u8>) -> Option<()> {
    let book = store.load(alloc).ok()?;
    let accounts = book.accounts().iter().count();
    let orders = book.orders().iter().count();
    let wrong = check(alloc, &book).ok()?.len();
    writeln!(out, "accounts: {accounts}, orders: {orders}, wrong statuses: {wrong}").ok()
}

// ---- The trials.

type Disks = Files<Failing<Memory>>;

// A disk with the bytes of another, which fails behind so many calls.
fn failing(alloc: Global, disk: &Failing<Memory>, fails_at: u64, stops: bool) -> Option<Failing<Memory>> {
    let mut copy = Memory::new(alloc);
    copy.write_at(0, disk.inner.bytes()).ok()?;
    Some(Failing::new(copy, fails_at, stops))
}

// Disks with the bytes of others, of which the log's fails behind so many calls.
fn copied(alloc: Global, files: &Disks, fails_at: u64, stops: bool) -> Option<Disks> {
    Some(Files { log: failing(alloc, &files.log, fails_at, stops)?, db: failing(alloc, &files.db, ALL, false)? })
}

fn made(alloc: Global) -> Option<Disks> {
    let policy = Policy::new(alloc, "https://ca.example", 3600, 604800, 2592000).ok()??;
    let blank = Files { log: Failing::new(Memory::new(alloc), ALL, false), db: Failing::new(Memory::new(alloc), ALL, false) };
    visit(alloc, blank, Errand::Make(policy), &mut Vec::new(alloc))
}

// How many calls the log's disk is asked until the desk is opened and has answered these lines.
fn calls_of(alloc: Global, desk: &Disks, lines: &[&[u8]]) -> Option<u64> {
    let files = visit(alloc, copied(alloc, desk, ALL, false)?, Errand::Ask(lines), &mut Vec::new(alloc))?;
    Some(files.log.passed)
}

// The log's disk stops in the first call; the desk is opened again, makes an account, and gets the account's request again.
fn stop(alloc: Global, desk: &Disks, nonce: &[u8], account: &[u8], out: &mut Vec<u8>) -> Option<()> {
    let calls = calls_of(alloc, desk, &[])?;
    let stopped = visit(alloc, copied(alloc, desk, calls, true)?, Errand::Ask(&[nonce]), out)?;
    let left = copied(alloc, &stopped, ALL, false)?;
    let left = visit(alloc, left, Errand::Ask(&[nonce, account, account]), out)?;
    visit(alloc, left, Errand::Count, out)?;
    Some(())
}

// A desk is asked three times over disks of which the log's fails once, behind so many calls, and once more when it is opened again.
fn fail(alloc: Global, desk: &Disks, calls: u64, nonce: &[u8], out: &mut Vec<u8>) -> Option<()> {
    let failed = visit(alloc, copied(alloc, desk, calls, false)?, Errand::Ask(&[nonce, nonce, nonce]), out)?;
    visit(alloc, copied(alloc, &failed, ALL, false)?, Errand::Ask(&[nonce]), out)?;
    Some(())
}

fn trials(alloc: Global, nonce: &[u8], account: &[u8], out: &mut Vec<u8>) -> Option<()> {
    let desk = made(alloc)?;
    stop(alloc, &desk, nonce, account, out)?;
    for calls in calls_of(alloc, &desk, &[])?..calls_of(alloc, &desk, &[nonce])? {
        writeln!(out, "call {calls}").ok()?;
        fail(alloc, &desk, calls, nonce, out)?;
    }
    Some(())
}

fn line_of(rt: &HostRuntime) -> Option<String> {
    let mut line = String::new(rt.alloc());
    rt.reader().read_line(&mut line).ok()?;
    Some(line)
}

fn run(rt: &HostRuntime) -> Option<()> {
    let nonce = line_of(rt)?;
    let account = line_of(rt)?;
    let mut out = Vec::new(rt.alloc());
    trials(rt.alloc(), nonce.trim().as_bytes(), account.trim().as_bytes(), &mut out)?;
    io::writer(rt).write_all(out.as_slice()).ok()
}

fn main(rt: HostRuntime) -> ExitCode {
    match run(&rt) {
        Some(()) => ExitCode::from(0),
        None => ExitCode::from(1),
    }
}
""".lstrip()


def run(calls):
    """What the small program prints that is asked these calls."""
    with tempfile.TemporaryDirectory(prefix="desk-stops-") as room:
        program = write_crates(room, "library_stops", CRATES, MAIN)
        os.makedirs(f"{room}/cases")
        write(f"{room}/cases/calls", calls)
        ran = subprocess.run(["rt", "try", "--seconds", "600", "--cases", f"{room}/cases"], cwd=program, stdout=subprocess.PIPE, stderr=subprocess.PIPE)
    see("the small program", (ran.returncode, ran.stderr if ran.returncode else b""), (0, b""))
    return re.sub(r"^(==|cases?=).*\n", "", ran.stdout.decode(), flags=re.MULTILINE)


def main():
    """Returns the exit status: 0 where the desk said what it ought to say."""
    zeros = "00" * 16
    account = {"jwk": KEY, "nonce": nonce_text(1), "payload": json.dumps({"contact": ["mailto:a@b.example"]})}
    calls = line_of("GET", "/new-nonce", random=zeros) + line_of("POST", "/new-account", json.dumps(account), random=zeros)
    stopped, *failed = re.split(r"call \d+\n", run(calls.decode()))
    see("stopped", stopped.splitlines(), SERVES_ONCE)
    see("whether calls to the disk failed", bool(failed), True)
    for at, said in enumerate(failed, 1):
        *lines, again = said.splitlines()
        see(f"failed call {at}", lines, CLOSED)
        # The nonce of the call that failed is not in the tables, or it is, and nobody was given it.
        see(f"failed call {at}: a nonce of the desk that is opened again", again in [f"204 - {nonce_text(serial)} -" for serial in (1, 2)], True)
    print(f"stopped once, and failed at each of {len(failed)} calls")
    return finish("library_stops")


if __name__ == "__main__":
    sys.exit(main())
