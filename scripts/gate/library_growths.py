"""Refuses each growth in turn to `Book::apply`, `from_rows`, `Desk::run` and to calls that take none, over the crates as they are, without proof.

  python3 -m scripts.gate.library_growths [--step N]    runs `rt try --fail-alloc` on a small program over a copy of the crates, which is compiled once;
                                                        with a step, only each growth of so many

`rt try` refuses one growth, by its number. So that each is refused in turn, the program first makes so many growths of its own as its input says.

After a refusal `apply` leaves the book as it was, `from_rows` gives none, and the replies of `run` are those of the calls before; with memory
each then does the rest. A desk that is closed answers 22 to each call, and a moment above the limit is answered 24, whichever growth is
refused. The program ends by a fault of its own where one of these is not so.
"""
import argparse
import os
import re
import subprocess
import sys
import tempfile

from scripts.gate.small_program import write_crates
from scripts.repository import write

CRATES = "desk_model desk_book store_api store_columns store_book desk_core desk"
# More growths than the program makes by its calls, and than it makes before them.
MOST = 900
MAIN = r"""
//! Calls of the library, one growth refused; each is made again with memory.
#![tactic(auto)]
use desk_book::{Book, Row, Table};
use desk::{Desk, DeskFault};
use desk_core::decide;
use desk_model::*;
use store_api::{Kept, ParsedCall, Storage, StorageFault};
use std::alloc::Global;
use std::io::BufRead;
use std::process::ExitCode;
use store_book::{RowsFault, from_rows};
use store_columns::*;

const STATUSES: [u16; 5] = [204, 201, 201, 200, 200];

// Ends the program by a fault.
fn wrong() {
    let none: Option<u8> = None;
    none.unwrap();
}

fn expect(is_right: bool) {
    if !is_right {
        wrong();
    }
}

fn text(alloc: Global, text: &str) -> Option<Text> {
    Some(Text::new(String::from_str(alloc, text).ok()?))
}

fn call(alloc: Global, ask: Ask) -> Option<Call> {
    let random = Sequence::new(Vec::from_slice(alloc, &[0u8; 64]).ok()?);
    Some(Call { at: 0, random, ask })
}

fn signed(alloc: Global, target: Target, nonce: &str, payload: &str) -> Option<Call> {
    let key = String::from_str(alloc, r#"{"crv":"P-256","kty":"EC","x":"AQ","y":"Ag"}"#).ok()?;
    let key = Ok(Jwk::new(key));
    let nonce = Some(text(alloc, nonce)?);
    let payload = text(alloc, payload)?;
    call(alloc, Ask::Signed(Signed { target, key, nonce, payload }))
}

// A nonce, an account, an order of two names, what the offices have to do, and the directory.
fn calls(alloc: Global) -> Option<Vec<Call>> {
    let mut calls = Vec::new(alloc);
    calls.push(call(alloc, Ask::NewNonce { head: false })?).ok()?;
    let contact = r#"{"contact":["mailto:a@b.example"]}"#;
    calls.push(signed(alloc, Target::NewAccount, "AAAAAAAAAAEAAAAAAAAAAAAAAAAAAAAA", contact)?).ok()?;
    let names = r#"{"identifiers":[{"type":"dns","value":"a.example"},{"type":"dns","value":"*.a.example"}]}"#;
    calls.push(signed(alloc, Target::NewOrder, "AAAAAAAAAAIAAAAAAAAAAAAAAAAAAAAA", names)?).ok()?;
    calls.push(call(alloc, Ask::Office(OfficeAsk::ChallengeWork))?).ok()?;
    calls.push(call(alloc, Ask::Office(OfficeAsk::Directory))?).ok()?;
    Some(calls)
}

fn policy(alloc: Global) -> Option<Policy> {
    Policy::new(alloc, "https://ca.example", 3600, 604800, 2592000).ok()?
}

// ---- run

// A store of one book, each part of which is the whole; it saves nothing where it cannot.
#[derive(Drop)]
struct Rows {
    book: Book,
    can_save: bool,
}

impl Rows {
    fn make(alloc: Global, can_save: bool) -> Option<Rows> {
        Some(Rows { book: Book::new(alloc, policy(alloc)?, Clock::at(0)), can_save })
    }
}

// Nothing is proved of it: what may be said of it is left open.
impl Kept for Rows {
    ghost Content = { Unit {0} };

    ghost sight = { ? };
}

impl Storage for Rows {
    ghost causes = { λ _ _ _ _. Unit {0} };

    fn policy(&mut self, _: Global) -> Result<Policy, StorageFault> {
        Ok(self.book.meta().policy.clone()?)
    }

    fn load_part(&mut self, _: Global, _: &ParsedCall) -> Result<Book, StorageFault> {
        Ok(self.book.clone()?)
    }

    fn save(&mut self, _: Global, _: &Book, changes: Vec<Change>) -> Result<(), StorageFault> {
        if !self.can_save {
            return Err(StorageFault::Device);
        }
        Ok(self.book.apply(changes)?)
    }
}

// Makes the calls, and those that a refusal left unmade again; what is answered is in either case the same. It says whether one was refused.
fn run_calls(alloc: Global) -> Option<bool> {
    let calls = calls(alloc)?;
    let mut desk = Desk::adopt(alloc, Rows::make(alloc, true)?).ok()?;
    let (replies, fault) = desk.run(alloc, calls.as_slice());
    let made = replies.len();
    match fault {
        None => expect(made == calls.len()),
        Some(fault) => expect(fault == DeskFault::Memory && made < calls.len()),
    }
    for (reply, status) in replies.iter().zip(STATUSES) {
        expect(reply.status == status);
    }
    let (rest, fault) = desk.run(alloc, &calls.as_slice()[made..]);
    expect(fault.is_none() && made + rest.len() == calls.len());
    for (reply, status) in rest.iter().zip(&STATUSES[made..]) {
        expect(reply.status == *status);
    }
    Some(made < calls.len())
}

// ---- apply

// What a book counts, and how many rows it has.
fn shape(book: &Book) -> [u64; 10] {
    let counters = book.meta().counters;
    [
        counters.clock.moment(),
        counters.nonces,
        counters.accounts,
        counters.orders,
        counters.authorizations,
        counters.challenges,
        book.nonces().iter().count() as u64,
        book.accounts().iter().count() as u64,
        book.orders().iter().count() as u64,
        book.authorizations().iter().count() as u64,
    ]
}

// Makes the changes of a call; after a refusal the book is as it was, and they are made again. It says whether they were refused.
fn apply_call(alloc: Global, book: &mut Book, call: &Call) -> Option<bool> {
    let parsed = ParsedCall::read(alloc, call).ok()?;
    let decision = decide(alloc, book, &parsed).ok()?;
    let again = decide(alloc, book, &parsed).ok()?;
    let before = shape(book);
    if book.apply(decision.changes).is_err() {
        expect(shape(book) == before);
        expect(book.apply(again.changes).is_ok());
        return Some(true);
    }
    Some(false)
}

fn applied(alloc: Global) -> Option<(Book, bool)> {
    let mut book = Book::new(alloc, policy(alloc)?, Clock::at(0));
    let mut is_refused = false;
    for call in &calls(alloc)? {
        is_refused = apply_call(alloc, &mut book, call)? || is_refused;
    }
    expect(shape(&book) == [0, 3, 1, 1, 2, 3, 1, 1, 1, 2]);
    Some((book, is_refused))
}

// ---- from_rows

fn bytes(alloc: Global, bytes: &[u8]) -> Option<Sequence<u8>> {
    Some(Sequence::new(Vec::from_slice(alloc, bytes).ok()?))
}

fn meta_columns(alloc: Global, row: &Meta) -> Option<MetaColumns> {
    Some(MetaColumns {
        id: 1,
        format: FORMAT,
        base: text(alloc, row.policy.base())?,
        nonce_life: row.policy.nonce_life() as i64,
        order_life: row.policy.order_life() as i64,
        authz_life: row.policy.authz_life() as i64,
        clock: row.counters.clock.moment() as i64,
        nonces: row.counters.nonces as i64,
        accounts: row.counters.accounts as i64,
        orders: row.counters.orders as i64,
        authzs: row.counters.authorizations as i64,
        challs: row.counters.challenges as i64,
    })
}

fn nonce_columns(alloc: Global, row: &Nonce) -> Option<NonceColumns> {
    Some(NonceColumns { serial: row.serial as i64, random: bytes(alloc, row.random.as_slice())?, issued: row.issued as i64 })
}

// Of an account with the contact of `calls`.
fn account_columns(alloc: Global, row: &AccountRow) -> Option<AccountColumns> {
    Some(AccountColumns {
        num: row.number as i64,
        jwk: text(alloc, row.key.canonical())?,
        contacts: text(alloc, r#"["mailto:a@b.example"]"#)?,
        opened: row.opened as i64,
        ended: None,
        end_kind: None,
        status: text(alloc, row.status.as_str())?,
    })
}

// Of an order that is not finalized.
fn order_columns(alloc: Global, row: &OrderRow) -> Option<OrderColumns> {
    Some(OrderColumns {
        num: row.number as i64,
        account: row.account as i64,
        made: row.made as i64,
        expires: row.expires as i64,
        finalized: None,
        csr: None,
        certified: None,
        cert: None,
        failed: None,
        problem: None,
        status: text(alloc, row.status.as_str())?,
    })
}

// Of an authorization that nothing ended.
fn authorization_columns(alloc: Global, row: &AuthorizationRow) -> Option<AuthzColumns> {
    Some(AuthzColumns {
        num: row.number as i64,
        account: row.account as i64,
        name: text(alloc, row.name.base())?,
        wildcard: if row.name.is_wildcard() { 1 } else { 0 },
        made: row.made as i64,
        expires: row.expires as i64,
        ended: None,
        end_kind: None,
        status: text(alloc, row.status.as_str())?,
    })
}

// Of a challenge that was not answered.
fn challenge_columns(alloc: Global, authorization: u64, row: &ChallengeRow) -> Option<ChallColumns> {
    Some(ChallColumns {
        num: row.number as i64,
        authz: authorization as i64,
        kind: text(alloc, row.kind.as_str())?,
        token: bytes(alloc, row.token.as_slice())?,
        answered: None,
        reported: None,
        outcome: None,
        status: text(alloc, row.status.as_str())?,
    })
}

fn columns<R: Row, C: Drop>(alloc: Global, rows: &Table<R>, columns_of: fn(Global, &R) -> Option<C>) -> Option<Sequence<C>> {
    let mut all = Vec::new(alloc);
    for row in rows.iter() {
        all.push(columns_of(alloc, row)?).ok()?;
    }
    Some(Sequence::new(all))
}

fn stored(alloc: Global, book: &Book) -> Option<StoredRows> {
    let mut metas = Vec::new(alloc);
    metas.push(meta_columns(alloc, book.meta())?).ok()?;
    let mut order_authzs = Vec::new(alloc);
    for order in book.orders().iter() {
        for listed in order.listed.as_slice() {
            let columns = OrderAuthzColumns { ord: order.number as i64, place: listed.place as i64, authz: listed.authorization as i64 };
            order_authzs.push(columns).ok()?;
        }
    }
    let mut challs = Vec::new(alloc);
    for authz in book.authorizations().iter() {
        for challenge in authz.challenges.as_slice() {
            challs.push(challenge_columns(alloc, authz.number, challenge)?).ok()?;
        }
    }
    Some(StoredRows {
        metas: Sequence::new(metas),
        nonces: columns(alloc, book.nonces(), nonce_columns)?,
        accounts: columns(alloc, book.accounts(), account_columns)?,
        orders: columns(alloc, book.orders(), order_columns)?,
        authzs: columns(alloc, book.authorizations(), authorization_columns)?,
        order_authzs: Sequence::new(order_authzs),
        challs: Sequence::new(challs),
        chall_keys: Sequence::new(Vec::new(alloc)),
    })
}

// Makes a book of the rows of another; after a refusal there is none, and it is made again. It says whether one was refused.
fn make_book(alloc: Global, book: &Book) -> Option<bool> {
    let rows = stored(alloc, book)?;
    let again = stored(alloc, book)?;
    let (made, is_refused) = match from_rows(alloc, rows) {
        Ok(made) => (made, false),
        Err(RowsFault::NotABook) => {
            wrong();
            return None;
        }
        Err(RowsFault::Memory) => (from_rows(alloc, again).ok()?, true),
    };
    expect(shape(&made) == shape(book));
    Some(is_refused)
}

// ---- calls that take no memory

// Each call is answered by this fault, and the desk's run of all of them ends at once by it.
fn declines<K: Storage + Drop>(alloc: Global, desk: &mut Desk<K>, calls: &[Call], fault: DeskFault) {
    for call in calls {
        expect(desk.answer(alloc, call).err() == Some(fault));
    }
    let (replies, ended) = desk.run(alloc, calls);
    expect(replies.len() == 0 && ended == Some(fault));
}

// A desk that a failure closed answers so to whatever it is asked, also past the last moment, until it is opened again.
fn ask_closed(alloc: Global) -> Option<()> {
    let calls = calls(alloc)?;
    let mut desk = Desk::adopt(alloc, Rows::make(alloc, false)?).ok()?;
    match desk.answer(alloc, calls.first()?).err() {
        Some(DeskFault::Device) => {}
        Some(DeskFault::Memory) => return None,
        _ => wrong(),
    }
    expect(desk.is_closed());
    let late = late(alloc)?;
    declines(alloc, &mut desk, calls.as_slice(), DeskFault::Reopen);
    declines(alloc, &mut desk, late.as_slice(), DeskFault::Reopen);
    expect(desk.answer_office(alloc, 0, OfficeAsk::RevokeAccount(1)).err() == Some(DeskFault::Reopen));
    Some(())
}

// The calls past the last moment.
fn late(alloc: Global) -> Option<Vec<Call>> {
    let mut late = calls(alloc)?;
    for call in late.iter_mut() {
        call.at = 250000000001;
    }
    Some(late)
}

// An open desk declines calls past the last moment, and stays open.
fn ask_late(alloc: Global) -> Option<()> {
    let late = late(alloc)?;
    let mut desk = Desk::adopt(alloc, Rows::make(alloc, true)?).ok()?;
    declines(alloc, &mut desk, late.as_slice(), DeskFault::Moment);
    expect(desk.answer_office(alloc, 250000000001, OfficeAsk::RevokeAccount(1)).err() == Some(DeskFault::Moment));
    expect(!desk.is_closed() && shape(&desk.into_store().book) == [0; 10]);
    Some(())
}

// What was refused: a growth of one of the three, or none of theirs.
fn refused(alloc: Global) -> Option<&'static str> {
    ask_closed(alloc)?;
    ask_late(alloc)?;
    if run_calls(alloc)? {
        return Some("run");
    }
    let (book, is_refused) = applied(alloc)?;
    if is_refused {
        return Some("apply");
    }
    if make_book(alloc, &book)? {
        return Some("from_rows");
    }
    Some("nothing")
}

// Makes so many growths as the input says.
fn grow(rt: &HostRuntime) -> Option<usize> {
    let mut line = String::new(rt.alloc());
    rt.reader().read_line(&mut line).ok()?;
    let growths = line.trim().parse::<u64>().ok()?;
    let mut bytes = 0usize;
    for _ in 0..growths {
        let grown: Vec<u8> = Vec::with_capacity(rt.alloc(), 8).ok()?;
        bytes = bytes.wrapping_add(grown.capacity());
    }
    Some(bytes)
}

fn main(rt: HostRuntime) -> ExitCode {
    let Some(bytes) = grow(&rt) else {
        return ExitCode::from(2);
    };
    let said = refused(rt.alloc()).unwrap_or("beside");
    match println!(rt; "{said} {bytes}") {
        Ok(()) => ExitCode::from(0),
        Err(_) => ExitCode::from(1),
    }
}
""".lstrip()


def main(step):
    """Returns the exit status: 0 where no try ended by a fault, and growths of each of the three were refused."""
    tried = range(0, MOST, step)
    with tempfile.TemporaryDirectory(prefix="desk-growths-") as room:
        program = write_crates(room, "growths", CRATES, MAIN)
        os.makedirs(f"{room}/cases")
        for growth in tried:
            write(f"{room}/cases/{growth:05}", f"{growth}\n")
        ran = subprocess.run(["rt", "try", "--fail-alloc", str(MOST), "--cases", f"{room}/cases"], cwd=program,
                             stdout=subprocess.PIPE, stderr=subprocess.DEVNULL, text=True)
    said = re.findall(r"^(run|apply|from_rows|beside|nothing) \d+$", ran.stdout, re.MULTILINE)
    counts = {word: said.count(word) for word in ("run", "apply", "from_rows", "beside", "nothing")}
    print(", ".join(f"{word}: {count}" for word, count in counts.items()))
    well = ran.returncode == 0 and len(said) == len(tried) and all(counts.values())
    if not well:
        print("\n".join(line for line in ran.stdout.splitlines() if "status=0" not in line)[-3000:])
    return 0 if well else 1


if __name__ == "__main__":
    words = argparse.ArgumentParser(description=__doc__, formatter_class=argparse.RawDescriptionHelpFormatter)
    words.add_argument("--step", type=int, default=1)
    sys.exit(main(words.parse_args().step))
