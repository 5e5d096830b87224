//! The floor of bench/check: the job of `vsync check TRACE` in plain Rust, with std alone and nothing proved.
//!
//! It reads the text of a trace (docs/FORMATS.md, "Trace text"), judges it by the eight rules for members that keep the chat (docs/GUARANTEES.md,
//! "The eight rules"), and prints the same line with the same exit status: `holds`, `broken RULE PLACE`, or `fault LINE NUMBER` of the first faulty line.
//!
//! It does less than the program in this: it takes one path, no `-` and no `--long`, `--map`, `--locks` or `--processes`; it has the text whole in memory,
//! not piece by piece; and where memory or its output fails it ends by a panic or an abort, not by 4 or 5.
//!
//! Payloads and states are not decoded: they stay slices of the text. Only lower case digits are read, so bytes are equal exactly if their digits are.
//! An event is judged as soon as it is read, and none is kept. Behind the first that breaks a rule the text is still read to its end, since a faulty line
//! goes before a verdict.

use std::collections::hash_map::Entry;
use std::collections::{HashMap, VecDeque};
use std::process::ExitCode;

/// The limits of the channel (crates/address/src/limits.rt), and how many lines the chat keeps.
const MEMBERS: usize = 16;
const PAYLOAD: usize = 512;
const GREATEST_NUMBER: u64 = 1 << 62;
const GREATEST_NODE: u64 = u16::MAX as u64;
const GREATEST_INCARNATION: u64 = u32::MAX as u64;
const TRACE_LINE: usize = 2_200_000;
const LINES: usize = 24;

/// Bytes as they stand in the text, two lower case hexadecimal digits for each.
type Hex<'a> = &'a [u8];

#[derive(Clone, Copy, PartialEq, Eq, PartialOrd, Ord, Hash)]
struct Address {
    node: u16,
    incarnation: u32,
}

#[derive(Clone, Copy, PartialEq, Eq, PartialOrd, Ord, Hash)]
struct ViewId {
    counter: u64,
    creator: Address,
}

/// A message of one sender: its number and its payload.
type Numbered<'a> = (u64, Hex<'a>);

struct Install<'a> {
    member: Address,
    previous: Option<ViewId>,
    id: ViewId,
    members: Vec<Address>,
    together: Vec<Address>,
    handed_back: Vec<Numbered<'a>>,
    given: Option<Hex<'a>>,
}

enum Event<'a> {
    Started(Address),
    Sent(Address, ViewId, Numbered<'a>),
    Delivered(Address, ViewId, Address, Numbered<'a>),
    Blocked(Address),
    Installed(Install<'a>),
    Ended(Address),
}

// ---- reading

/// What is wrong with a line; its number is what is printed.
#[derive(Clone, Copy)]
enum Fault {
    UnknownWord = 40,
    BadNumber = 41,
    MissingField = 42,
    LineTooLong = 43,
}

/// What is left of a line: `None` behind its last field.
struct Fields<'a>(Option<&'a [u8]>);

impl<'a> Fields<'a> {
    fn next(&mut self) -> Result<&'a [u8], Fault> {
        let text = self.0.ok_or(Fault::MissingField)?;
        let (field, rest) = match text.iter().position(|byte| *byte == b' ') {
            Some(end) => (&text[..end], Some(&text[end + 1..])),
            None => (text, None),
        };
        self.0 = rest;
        Ok(field)
    }

    /// What the next field spells.
    fn read<T>(&mut self, spelled: impl Fn(&'a [u8]) -> Option<T>) -> Result<T, Fault> {
        spelled(self.next()?).ok_or(Fault::BadNumber)
    }

    fn end(&self) -> Result<(), Fault> {
        self.0.map_or(Ok(()), |_| Err(Fault::BadNumber))
    }
}

/// The number from 1 to `high` at the front of a text, without leading zeros, and what is behind its digits.
fn number_in_front(text: &[u8], high: u64) -> Option<(u64, &[u8])> {
    let length = text.iter().take_while(|byte| byte.is_ascii_digit()).count();
    let (digits, behind) = text.split_at(length);
    // 19 digits fit into 64 bits, and no number that may stand here has more.
    if digits.first() == Some(&b'0') || digits.len() > 19 {
        return None;
    }
    let append = |value, digit: &u8| value * 10 + u64::from(digit - b'0');
    let value = digits.iter().fold(0, append);
    (1..=high).contains(&value).then_some((value, behind))
}

fn address_in_front(text: &[u8]) -> Option<(Address, &[u8])> {
    let (node, behind) = number_in_front(text, GREATEST_NODE)?;
    let (incarnation, behind) = number_in_front(behind.strip_prefix(b".")?, GREATEST_INCARNATION)?;
    let (node, incarnation) = (node as u16, incarnation as u32);
    Some((Address { node, incarnation }, behind))
}

/// What is in front, if nothing is behind it.
fn alone<T>((value, behind): (T, &[u8])) -> Option<T> {
    behind.is_empty().then_some(value)
}

fn number(field: &[u8]) -> Option<u64> {
    number_in_front(field, GREATEST_NUMBER).and_then(alone)
}

fn address(field: &[u8]) -> Option<Address> {
    address_in_front(field).and_then(alone)
}

fn view_id(field: &[u8]) -> Option<ViewId> {
    let (counter, behind) = number_in_front(field, GREATEST_NUMBER)?;
    let creator = address(behind.strip_prefix(b"@")?)?;
    Some(ViewId { counter, creator })
}

fn previous(field: &[u8]) -> Option<Option<ViewId>> {
    match field {
        b"-" => Some(None),
        _ => view_id(field).map(Some),
    }
}

fn hex(field: &[u8]) -> Option<Hex<'_>> {
    let is_digit = |byte: &u8| matches!(byte, b'0'..=b'9' | b'a'..=b'f');
    (field.len() % 2 == 0 && field.iter().all(is_digit)).then_some(field)
}

fn short_hex(field: &[u8]) -> Option<Hex<'_>> {
    hex(field).filter(|digits| digits.len() <= 2 * PAYLOAD)
}

fn payload(field: &[u8]) -> Option<Hex<'_>> {
    match field {
        b"" => None,
        b"-" => Some(b""),
        _ => short_hex(field),
    }
}

/// Addresses joined by commas, at least one, of which none stands twice.
fn addresses(field: &[u8]) -> Option<Vec<Address>> {
    let parts = field.split(|byte| *byte == b',');
    let addresses: Vec<Address> = parts.map(address).collect::<Option<_>>()?;
    let mut sorted = addresses.clone();
    sorted.sort_unstable();
    let is_distinct = sorted.windows(2).all(|pair| pair[0] != pair[1]);
    is_distinct.then_some(addresses)
}

fn handed_back(field: &[u8]) -> Option<Vec<Numbered<'_>>> {
    if field == b"-" {
        return Some(Vec::new());
    }
    let message = |part| {
        let (number, behind) = number_in_front(part, GREATEST_NUMBER)?;
        Some((number, short_hex(behind.strip_prefix(b":")?)?))
    };
    field.split(|byte| *byte == b',').map(message).collect()
}

fn given(field: &[u8]) -> Option<Option<Hex<'_>>> {
    match field {
        b"-" => Some(None),
        _ => hex(field.strip_prefix(b"=")?).map(Some),
    }
}

fn numbered<'a>(fields: &mut Fields<'a>) -> Result<Numbered<'a>, Fault> {
    Ok((fields.read(number)?, fields.read(payload)?))
}

fn install<'a>(fields: &mut Fields<'a>) -> Result<Install<'a>, Fault> {
    let member = fields.read(address)?;
    let previous = fields.read(previous)?;
    let id = fields.read(view_id)?;
    let members = fields.read(addresses)?;
    if members.len() > MEMBERS || members[0] != id.creator {
        return Err(Fault::BadNumber);
    }
    Ok(Install {
        member,
        previous,
        id,
        members,
        together: fields.read(addresses)?,
        handed_back: fields.read(handed_back)?,
        given: fields.read(given)?,
    })
}

/// The event of a line that is not skipped; `None` where it says how much is stable.
fn event_in(line: &[u8]) -> Result<Option<Event<'_>>, Fault> {
    if line.len() > TRACE_LINE {
        return Err(Fault::LineTooLong);
    }
    let mut fields = Fields(Some(line));
    let event = match fields.next()? {
        b"started" => Some(Event::Started(fields.read(address)?)),
        b"sent" => {
            let (member, view) = (fields.read(address)?, fields.read(view_id)?);
            Some(Event::Sent(member, view, numbered(&mut fields)?))
        }
        b"delivered" => {
            let (member, view) = (fields.read(address)?, fields.read(view_id)?);
            let (sender, message) = (fields.read(address)?, numbered(&mut fields)?);
            Some(Event::Delivered(member, view, sender, message))
        }
        b"blocked" => Some(Event::Blocked(fields.read(address)?)),
        b"installed" => Some(Event::Installed(install(&mut fields)?)),
        b"left" | b"crashed" => Some(Event::Ended(fields.read(address)?)),
        b"stable" => {
            fields.read(address)?;
            fields.read(view_id)?;
            fields.read(number)?;
            None
        }
        _ => return Err(Fault::UnknownWord),
    };
    fields.end()?;
    Ok(event)
}

// ---- the state of a chat: its last lines, the oldest first

type Chat<'a> = VecDeque<(Address, Hex<'a>)>;

/// The next bytes of a state.
fn take<'a>(state: &mut Hex<'a>, bytes: usize) -> Option<Hex<'a>> {
    if state.len() < 2 * bytes {
        return None;
    }
    let (taken, left) = state.split_at(2 * bytes);
    *state = left;
    Some(taken)
}

/// The number of the next bytes of a state, from `low` to `high`.
fn take_number(state: &mut Hex<'_>, bytes: usize, low: u64, high: u64) -> Option<u64> {
    let digits = std::str::from_utf8(take(state, bytes)?).ok()?;
    let value = u64::from_str_radix(digits, 16).ok()?;
    (low..=high).contains(&value).then_some(value)
}

/// The lines of a state; `None` where no chat has it.
fn chat_of<'a>(mut state: Hex<'a>) -> Option<Chat<'a>> {
    let mut chat = Chat::new();
    for _ in 0..take_number(&mut state, 1, 0, LINES as u64)? {
        let node = take_number(&mut state, 2, 1, GREATEST_NODE)? as u16;
        let incarnation = take_number(&mut state, 4, 1, GREATEST_INCARNATION)? as u32;
        let length = take_number(&mut state, 2, 0, PAYLOAD as u64)?;
        let payload = take(&mut state, length as usize)?;
        chat.push_back((Address { node, incarnation }, payload));
    }
    state.is_empty().then_some(chat)
}

// ---- judging

/// The rules, by the codes that are printed.
#[derive(Clone, Copy, Debug)]
enum Rule {
    D5,  // well placed
    D6,  // rising views
    D7,  // integrity and FIFO
    D8,  // one order
    D9,  // same next view, same list
    D10, // transitional set
    D11, // undelivered sends
    D12, // state of entry
}

/// A member that has started.
#[derive(Default)]
struct Process<'a> {
    ended: bool,
    blocked: bool,
    view: Option<ViewId>,
    chat: Chat<'a>,
}

/// What a member did in a view that it entered. Its messages there are numbered 1, 2, .. in the order in which they are sent, so their payloads are enough.
struct Stay<'a> {
    previous: Option<ViewId>,
    together: Vec<Address>,
    sent: Vec<Hex<'a>>,
    /// How many messages it delivered, and how many of each sender, by rank.
    delivered: usize,
    of_sender: [u64; MEMBERS],
}

/// A view that was entered. What a member delivers is a beginning of the order, which is what the coordinator delivered: senders by rank, and numbers.
struct View<'a> {
    members: Vec<Address>,
    stays: Vec<Option<Stay<'a>>>,
    order: Vec<(usize, u64)>,
    /// The state with which the coordinator entered.
    state: Chat<'a>,
}

impl<'a> View<'a> {
    fn rank(&self, member: Address) -> Option<usize> {
        self.members.iter().position(|other| *other == member)
    }

    fn stay(&self, member: Address) -> Option<&Stay<'a>> {
        self.stays[self.rank(member)?].as_ref()
    }

    /// Who has entered, and what each did.
    fn entered(&self) -> impl Iterator<Item = (Address, &Stay<'a>)> {
        let both = self.members.iter().zip(&self.stays);
        both.filter_map(|(member, stay)| Some((*member, stay.as_ref()?)))
    }
}

/// What the rules ask of the events so far.
#[derive(Default)]
struct Past<'a> {
    processes: HashMap<Address, Process<'a>>,
    views: HashMap<ViewId, View<'a>>,
}

/// The process of a member that has started and not ended.
fn running<'p, 'a>(
    processes: &'p mut HashMap<Address, Process<'a>>,
    member: Address,
) -> Result<&'p mut Process<'a>, Rule> {
    let process = processes.get_mut(&member);
    process.filter(|process| !process.ended).ok_or(Rule::D5)
}

fn keeps(is_kept: bool, rule: Rule) -> Result<(), Rule> {
    is_kept.then_some(()).ok_or(rule)
}

/// Why the look-ups of a member's current view find something.
const ENTERED: &str = "a member has entered its current view";

impl<'a> Past<'a> {
    /// Goes one event further, or answers the first rule that it breaks; then there is nothing more to ask.
    fn go_on(&mut self, event: Event<'a>) -> Result<(), Rule> {
        match event {
            Event::Started(member) => match self.processes.entry(member) {
                Entry::Occupied(_) => return Err(Rule::D5),
                Entry::Vacant(place) => {
                    place.insert(Process::default());
                }
            },
            Event::Sent(member, view, message) => self.send(member, view, message)?,
            Event::Delivered(member, view, sender, message) => {
                self.deliver(member, view, sender, message)?
            }
            Event::Blocked(member) => {
                let process = running(&mut self.processes, member)?;
                keeps(process.view.is_some() && !process.blocked, Rule::D5)?;
                process.blocked = true;
            }
            Event::Installed(install) => self.install(install)?,
            Event::Ended(member) => running(&mut self.processes, member)?.ended = true,
        }
        Ok(())
    }

    fn send(
        &mut self,
        member: Address,
        view: ViewId,
        (number, payload): Numbered<'a>,
    ) -> Result<(), Rule> {
        let process = running(&mut self.processes, member)?;
        keeps(process.view == Some(view) && !process.blocked, Rule::D5)?;
        let view = self.views.get_mut(&view).expect(ENTERED);
        let rank = view.rank(member).expect(ENTERED);
        let stay = view.stays[rank].as_mut().expect(ENTERED);
        keeps(number == stay.sent.len() as u64 + 1, Rule::D7)?;
        stay.sent.push(payload);
        Ok(())
    }

    fn deliver(
        &mut self,
        member: Address,
        view: ViewId,
        sender: Address,
        (number, payload): Numbered<'a>,
    ) -> Result<(), Rule> {
        let process = running(&mut self.processes, member)?;
        keeps(process.view == Some(view), Rule::D5)?;
        let view = self.views.get_mut(&view).expect(ENTERED);
        let rank = view.rank(member).expect(ENTERED);
        // Who is no member, or has not entered, sent nothing there.
        let by = view.rank(sender).ok_or(Rule::D7)?;
        let sent = view.stays[by].as_ref().map(|stay| &stay.sent);
        let was_sent = sent.and_then(|sent| sent.get(number as usize - 1)) == Some(&payload);
        let stay = view.stays[rank].as_mut().expect(ENTERED);
        keeps(was_sent && number == stay.of_sender[by] + 1, Rule::D7)?;
        if rank == 0 {
            view.order.push((by, number));
        } else {
            let next = view.order.get(stay.delivered);
            keeps(next == Some(&(by, number)), Rule::D8)?;
        }
        stay.delivered += 1;
        stay.of_sender[by] += 1;
        process.chat.push_back((sender, payload));
        if process.chat.len() > LINES {
            process.chat.pop_front();
        }
        Ok(())
    }

    fn install(&mut self, install: Install<'a>) -> Result<(), Rule> {
        let (member, previous, id) = (install.member, install.previous, install.id);
        let process = running(&mut self.processes, member)?;
        let view = self.views.get(&id);
        let is_above = previous == process.view && previous < Some(id);
        let is_same = view.map_or(true, |view| view.members == install.members);
        let place = install.members.iter().position(|other| *other == member);
        let rank = place.ok_or(Rule::D6)?;
        keeps(is_above && is_same, Rule::D6)?;

        // Where it comes from, and what it did there.
        let before = previous.map(|previous| {
            let view = &self.views[&previous];
            (view, view.stay(member).expect(ENTERED))
        });
        let entered = || view.into_iter().flat_map(View::entered);
        if let Some((last, stay)) = before {
            let mut companions = entered().filter(|(_, other)| other.previous == previous);
            let delivered = |member| last.stay(member).expect(ENTERED).delivered;
            let are_level = companions.all(|(other, _)| delivered(other) == stay.delivered);
            keeps(are_level, Rule::D9)?;
        }

        let together = &install.together;
        let lies_within = |outer: &[Address]| together.iter().all(|other| outer.contains(other));
        let know_each_other = |(other, stay): (Address, &Stay)| {
            let came_along = stay.previous == previous;
            together.contains(&other) == came_along && stay.together.contains(&member) == came_along
        };
        let knows_all = lies_within(&install.members)
            && before.map_or(true, |(last, _)| lies_within(&last.members))
            && together.contains(&member)
            && entered().all(know_each_other);
        keeps(knows_all, Rule::D10)?;

        let back = install.handed_back;
        let is_rest = before.map_or(back.is_empty(), |(last, stay)| {
            let own = stay.of_sender[last.rank(member).expect(ENTERED)];
            let rest = stay.sent[own as usize..].iter().copied();
            (own + 1..).zip(rest).eq(back)
        });
        keeps(is_rest, Rule::D11)?;

        if let Some(state) = install.given {
            process.chat = chat_of(state).ok_or(Rule::D12)?;
        }
        // The coordinator enters first, and all others with its state.
        let is_alike = view.map_or(rank == 0, |view| view.state == process.chat);
        keeps(is_alike, Rule::D12)?;

        process.blocked = false;
        process.view = Some(id);
        let view = self.views.entry(id).or_insert_with(|| View {
            stays: install.members.iter().map(|_| None).collect(),
            members: install.members,
            order: Vec::new(),
            state: process.chat.clone(),
        });
        view.stays[rank] = Some(Stay {
            previous,
            together: install.together,
            sent: Vec::new(),
            delivered: 0,
            of_sender: [0; MEMBERS],
        });
        Ok(())
    }
}

/// The rule that breaks first and the place of the event that breaks it, if one does; or the first faulty line, from 1.
fn judge(text: &[u8]) -> Result<Option<(Rule, usize)>, (usize, Fault)> {
    let mut past = Past::default();
    let mut broken = None;
    let mut place = 0;
    for (index, line) in text.split(|byte| *byte == b'\n').enumerate() {
        if line.is_empty() || line[0] == b'#' {
            continue;
        }
        let Some(event) = event_in(line).map_err(|fault| (index + 1, fault))? else {
            continue;
        };
        place += 1;
        if broken.is_none() {
            broken = past.go_on(event).err().map(|rule| (rule, place));
        }
    }
    Ok(broken)
}

fn main() -> ExitCode {
    let words: Vec<_> = std::env::args_os().skip(1).collect();
    let [path] = words.as_slice() else {
        eprintln!("usage: plain_check TRACE");
        return ExitCode::from(2);
    };
    let text = match std::fs::read(path) {
        Ok(text) => text,
        Err(error) => {
            eprintln!("plain_check: {}: {error}", path.to_string_lossy());
            return ExitCode::from(5);
        }
    };
    match judge(&text) {
        Ok(None) => {
            println!("holds");
            ExitCode::SUCCESS
        }
        Ok(Some((rule, place))) => {
            println!("broken {rule:?} {place}");
            ExitCode::from(1)
        }
        Err((line, fault)) => {
            println!("fault {line} {}", fault as u8);
            ExitCode::from(3)
        }
    }
}
