// Holds everything that is timed to the independent implementation, on many random inputs, before anything is timed.
use crate::contest;
use crate::ffi::{self, OrderRow, RowReport, Session, ROW};
use crate::greedy;
use crate::load::{self, Bytes, Steps};
use crate::reference::{self, Event, Label, Past};
use crate::verdict::{found, Judged, Outcome, Reason, Refusal, Relation, EVENTS, PLACES, SLOTS, THREADS};

/// How many inputs of each kind.
const SHORT: usize = 16000;
const MIDDLE: usize = 3000;
const LONG: usize = 300;
const DAMAGED: usize = 16000;
const PATTERNS: usize = 8000;
const DEEP: usize = 400;
const ROWS: usize = 20000;
const LOADS: usize = 2000;
const ORDERS: usize = 8000;

/// How many lists are given for each log whose orders are gone through.
const LISTS: usize = 12;

#[derive(Default)]
struct Totals {
    inputs: usize,
    matches: usize,
    nones: usize,
    refused: [usize; 18],
    handed: usize,
    verdicts: usize,
    queries: usize,
    reasons: Reasons,
    replays: usize,
    rows: usize,
    divided: usize,
    loads: usize,
    orders: Orders,
}

/// Logs without a match where no event fits the slot that can't be filled, and where the last one that does is too early; how many of both have each slot
/// so; and the matches and refusals, which have no reason.
#[derive(Default)]
struct Reasons {
    no_fit: usize,
    too_early: usize,
    at: [usize; SLOTS],
    decided: usize,
}

/// Logs whose orders are gone through, those of them that fill all places, their orders, and the logs with an order that holds the pattern; lists that are
/// no order of their log; logs that are too long, and refused ones.
#[derive(Default)]
struct Orders {
    logs: usize,
    full: usize,
    given: usize,
    shown: usize,
    unreached: usize,
    long: usize,
    refused: usize,
}

/// Whether one event, counted from 0, comes before another or is it.
type Before = Box<dyn Fn(usize, usize) -> bool>;

/// By all chains where the log is not too long, and then by stamps too; else by stamps alone.
fn before(log: &[Label]) -> Before {
    let list = log.to_vec();
    let stamp = reference::stamps(log);
    let by_stamp = move |i: usize, j: usize| {
        let t = list[i].thread as usize;
        stamp[i][t] <= stamp[j][t]
    };
    if log.len() > 200 {
        return Box::new(by_stamp);
    }
    let chain = reference::chains(log);
    for j in 0..log.len() {
        for i in 0..log.len() {
            assert_eq!(chain[j][i], by_stamp(i, j), "stamps and chains differ on {log:?}");
        }
    }
    Box::new(move |i, j| chain[j][i])
}

/// The count by the least tuple, and for a short log by looking through all its orders too.
fn count(slots: &[Label], log: &[Label], before: &Before) -> usize {
    let count = reference::count_by_tuple(slots, log, before);
    if log.len() <= 8 {
        assert_eq!(count, reference::count_by_orders(slots, log), "the least tuple and all orders differ on {log:?}");
    }
    count
}

/// The first list within the count, as a run names it: by a search that goes on only with what satisfies the rule, and for a short log by
/// going through all lists too.
fn first(slots: &[Label], log: &[Label], before: &Before, count: usize) -> [u16; SLOTS] {
    let leading = &log[..count];
    let first = reference::first_list(slots, leading, before);
    if log.len() <= 8 {
        assert_eq!(first, reference::first_of_all_lists(slots, leading, before), "the search and all lists differ on {log:?}");
    }
    assert_eq!(first.is_some(), count > 0, "no list satisfies the rule within {count} of {log:?}");
    reference::in_slots(&first.unwrap_or_default())
}

/// Why there is no match; for a short log the slots before the one that can't be filled, their events and that slot are held to all lists too.
fn why(slots: &[Label], log: &[Label], before: &Before) -> Reason {
    let reason = reference::reason(slots, log, before).expect("a log without a match has a slot that can't be filled");
    if log.len() <= 6 {
        let least = |size: usize| reference::least_of_all_lists(&slots[..size], log, before);
        let events = least(reason.slot - 1).map(|list| reference::in_slots(&list));
        assert_eq!(events, Some(reason.events), "the reason's events and all lists differ on {log:?}");
        assert_eq!(least(reason.slot), None, "slot {} can be filled in {log:?}", reason.slot);
    }
    reason
}

/// What document 01 asks of the events that a session names for the slots: any list that satisfies the rule within the count will do.
fn named(slots: &[Label], log: &[Label], before: &Before, count: usize, numbers: [u16; SLOTS]) -> bool {
    let (used, beyond) = numbers.split_at(if count == 0 { 0 } else { slots.len() });
    if beyond.iter().any(|&n| n != 0) || used.iter().any(|&n| n == 0 || n as usize > count) {
        return false;
    }
    let list: Vec<usize> = used.iter().map(|&n| n as usize - 1).collect();
    reference::satisfies(slots, log, before, &list)
}

/// What the independent implementation answers, with the log's events and their order.
struct Expected {
    judged: Judged,
    log: Vec<Label>,
    before: Before,
}

fn labels(events: &[Event]) -> Vec<Label> {
    events.iter().map(|e| e.label).collect()
}

fn expected(pattern: &[u8], log: &[u8]) -> Expected {
    let read = reference::read_log(log);
    let list = labels(read.as_deref().unwrap_or(&[]));
    let before = before(&list);
    let refused = |outcome| Judged { outcome, numbers: [0; SLOTS] };
    let judged = match (reference::read_pattern(pattern), read) {
        (Err(refusal), _) => refused(Outcome::PatternRefused(refusal)),
        (_, Err(refusal)) => refused(Outcome::LogRefused(refusal)),
        (Ok(slots), Ok(_)) => {
            let count = count(&slots, &list, &before);
            Judged { outcome: found(count), numbers: first(&slots, &list, &before, count) }
        }
    };
    Expected { judged, log: list, before }
}

/// How event i stands to event j: by the chain, both ways round.
fn relation(i: usize, j: usize, before: &Before) -> Relation {
    match (i == j, before(i, j), before(j, i)) {
        (true, ..) => Relation::Same,
        (_, true, _) => Relation::Before,
        (_, _, true) => Relation::After,
        _ => Relation::Free,
    }
}

/// The replay log of what is answered; nothing without a match.
fn replay_of(log: &[u8], e: &Expected) -> Vec<u8> {
    let Outcome::Match { .. } = e.judged.outcome else {
        return Vec::new();
    };
    let mut commands = Vec::new();
    let mut at = 0;
    while let Ok(Some((_, next))) = reference::command(log, at, true) {
        commands.push(&log[at..next]);
        at = next;
    }
    let chosen: Vec<usize> = e.judged.numbers.iter().filter(|&&n| n != 0).map(|&n| n as usize - 1).collect();
    let order = reference::replayed(commands.len(), &chosen, &e.before);
    let mut bytes: Vec<u8> = order.iter().flat_map(|&i| commands[i]).copied().collect();
    bytes.push(0);
    bytes
}

/// The orders that swaps reach, smallest first, by the event numbers at their places.
fn all_orders(list: &[Label]) -> Vec<[u8; PLACES]> {
    let numbered = |order: &Vec<usize>| {
        let mut places = [0; PLACES];
        for (place, e) in places.iter_mut().zip(order) {
            *place = *e as u8 + 1;
        }
        places
    };
    reference::orders(list).iter().map(numbered).collect()
}

/// Whether one of the orders holds the pattern.
fn shown(pattern: &[u8], list: &[Label], orders: &[[u8; PLACES]]) -> bool {
    let slots = reference::read_pattern(pattern).expect("the pattern is a good one");
    let events = |order: &[u8; PLACES]| order[..list.len()].iter().map(|&n| n as usize - 1).collect::<Vec<usize>>();
    orders.iter().any(|order| reference::holds(&slots, list, &events(order)))
}

/// What is answered after a list, be it an order or none.
fn after(orders: &[[u8; PLACES]], list: &[u8]) -> OrderRow {
    match orders.iter().position(|order| order == list) {
        Some(i) => orders.get(i + 1).map_or(OrderRow::LAST, |next| OrderRow::order(*next)),
        None => OrderRow::query_refused(26),
    }
}

/// What the floor answers where the whole checker answers this: it knows no pattern.
fn without_pattern(log: &[u8]) -> Outcome {
    match reference::read_log(log) {
        Ok(_) => Outcome::None,
        Err(refusal) => Outcome::LogRefused(refusal),
    }
}

impl Totals {
    fn note(&mut self, outcome: Outcome) {
        self.inputs += 1;
        match outcome {
            Outcome::Match { .. } => self.matches += 1,
            Outcome::None => self.nones += 1,
            Outcome::PatternRefused(r) | Outcome::LogRefused(r) => self.refused[r.number as usize] += 1,
        }
    }

    /// One pattern and one log: the proved run and the unproved one with the events that they name, and the outcome of every contestant.
    fn hold(&mut self, pattern: &[u8], log: &[u8]) {
        let e = expected(pattern, log);
        self.note(e.judged.outcome);
        assert_eq!(greedy::run(pattern, log), e.judged, "(e) with its events: {pattern:02x?} {log:02x?}");
        assert_eq!(ffi::run(pattern, log), e.judged, "(a) with its events: {pattern:02x?} {log:02x?}");
        for (name, contestant) in contest::ALL {
            let wanted = if name == "c" { without_pattern(log) } else { e.judged.outcome };
            let got = contestant(pattern, log);
            assert_eq!(got, wanted, "({name}): {pattern:02x?} {log:02x?}");
        }
        self.hold_order(log, &e);
        self.hold_reason(pattern, log, &e);
        self.hold_replay(pattern, log, &e);
    }

    /// The reason: what the run says, with all its numbers where that is no match, and with none else.
    fn hold_reason(&mut self, pattern: &[u8], log: &[u8], e: &Expected) {
        let none = e.judged.outcome == Outcome::None;
        let slots = reference::read_pattern(pattern).unwrap_or_default();
        let wanted = if none { why(&slots, &e.log, &e.before) } else { Reason::default() };
        assert_eq!(ffi::reason(pattern, log), (e.judged, wanted), "reason: {pattern:02x?} {log:02x?}");
        let total = match (none, wanted.last) {
            (false, _) => return self.reasons.decided += 1,
            (_, 0) => &mut self.reasons.no_fit,
            _ => &mut self.reasons.too_early,
        };
        *total += 1;
        self.reasons.at[wanted.slot - 1] += 1;
    }

    /// The replay into a buffer with a byte more than the log, with as many, and with one fewer; what it does not write stays as it was.
    fn hold_replay(&mut self, pattern: &[u8], log: &[u8], e: &Expected) {
        let wanted = replay_of(log, e);
        for size in [log.len() + 1, log.len(), log.len().saturating_sub(1)] {
            let mut buffer = vec![0xAA; size];
            let answer = ffi::replay(pattern, log, &mut buffer);
            let passed = matches!(e.judged.outcome, Outcome::Match { .. } | Outcome::None);
            let short = passed && size < log.len();
            let outcome = Outcome::LogRefused(Refusal { number: 15, offset: 0 });
            let judged = if short { Judged { outcome, numbers: [0; SLOTS] } } else { e.judged };
            let written = if short { &[] } else { &wanted[..] };
            assert_eq!(answer, (judged, written.len()), "replay: {pattern:02x?} {log:02x?}");
            let rest = vec![0xAA; size - written.len()];
            assert_eq!(buffer, [written, &rest].concat(), "replay: {pattern:02x?} {log:02x?}");
        }
        self.replays += usize::from(!wanted.is_empty());
    }

    /// The load into a buffer with a byte more than it has, with as many, and with one fewer; what it does not write stays as it was.
    fn hold_load(&mut self, seed: u32, count: usize) {
        let wanted = reference::load(seed, count);
        for size in [wanted.len() + 1, wanted.len(), wanted.len() - 1] {
            let mut buffer = vec![0xAA; size];
            let short = size < wanted.len();
            let answer = if short { Err(Refusal { number: 15, offset: 0 }) } else { Ok(wanted.len()) };
            assert_eq!(ffi::load(seed, count, &mut buffer), answer, "load: {seed} {count}");
            let written = if short { &[] } else { &wanted[..] };
            let rest = vec![0xAA; size - written.len()];
            assert_eq!(buffer, [written, &rest].concat(), "load: {seed} {count}");
        }
        self.loads += 1;
    }

    /// What is answered about the orders of a log, whatever the log is; one that is refused is so with every list.
    fn hold_orders(&mut self, steps: &mut Steps, pattern: &[u8], log: &[u8]) {
        let (refusal, total) = match reference::read_log(log) {
            Err(refusal) => (OrderRow::log_refused(refusal), &mut self.orders.refused),
            Ok(events) if events.len() > PLACES => (OrderRow::query_refused(25), &mut self.orders.long),
            Ok(events) => return self.go_through(steps, pattern, log, &labels(&events)),
        };
        *total += 1;
        assert_eq!(ffi::first_order(log), refusal, "first order: {log:02x?}");
        for _ in 0..LISTS {
            let list = near(steps, &[[1, 2, 3, 4, 5, 6, 7, 8]]);
            assert_eq!(ffi::next_order(log, &list), refusal, "order after {list:?}: {log:02x?}");
        }
    }

    /// All orders by the library's calls, one after the other; the pattern is in one of them where the run says so. Then what is answered after lists that
    /// lie near an order.
    fn go_through(&mut self, steps: &mut Steps, pattern: &[u8], log: &[u8], events: &[Label]) {
        let orders = all_orders(events);
        let mut row = ffi::first_order(log);
        for order in &orders {
            assert_eq!(row, OrderRow::order(*order), "an order: {log:02x?}");
            row = ffi::next_order(log, order);
        }
        assert_eq!(row, OrderRow::LAST, "after the last order: {log:02x?}");
        let shown = shown(pattern, events, &orders);
        let matched = matches!(ffi::run(pattern, log).outcome, Outcome::Match { .. });
        assert_eq!(shown, matched, "some order and the run differ: {pattern:02x?} {log:02x?}");
        for _ in 0..LISTS {
            let list = near(steps, &orders);
            let wanted = after(&orders, &list);
            assert_eq!(ffi::next_order(log, &list), wanted, "order after {list:?}: {log:02x?}");
            self.orders.unreached += usize::from(wanted == OrderRow::query_refused(26));
        }
        self.orders.logs += 1;
        self.orders.full += usize::from(events.len() == PLACES);
        self.orders.given += orders.len();
        self.orders.shown += usize::from(shown);
    }

    /// A few order queries of an accepted log, one of them past its end.
    fn hold_order(&mut self, log: &[u8], e: &Expected) {
        let n = e.log.len();
        if n == 0 || n > 200 {
            return;
        }
        let mut steps = Steps(n as u32 + log.len() as u32);
        for _ in 0..3 {
            let (i, j) = (steps.below(n as u32) as usize, steps.below(n as u32) as usize);
            assert_eq!(ffi::order(log, i + 1, j + 1), Ok(relation(i, j, &e.before)), "order {i} {j}: {log:02x?}");
        }
        assert_eq!(ffi::order(log, n, n + 1), Err(Refusal { number: 16, offset: 0 }));
        self.queries += 4;
    }

    /// One session over a list of events, good or bad: each answer, and the verdict after every event.
    fn hand(&mut self, pattern: &[u8], list: &[Event]) {
        let read = reference::read_pattern(pattern);
        let (mut session, answer) = Session::open(pattern);
        assert_eq!(answer, read.as_ref().map(Vec::len).map_err(|r| *r), "opening: {pattern:02x?}");
        let lone = Label { op: 7, thread: 0, object: 0 };
        let slots = read.unwrap_or(vec![lone]);
        let taken = accepted(list);
        let before = before(&taken);
        let count = count(&slots, &taken, &before);
        let mut past = Past::default();
        for e in list {
            let wanted = past.refusal(e.label);
            let old = session.clone();
            let got = session.take(numbers(*e));
            assert_eq!(got, wanted, "event {e:?} of {list:?}");
            assert!(got == 0 || session == old, "a refused event changed the session: {list:?}");
            if got == 0 {
                past.take(e.label);
            }
            let so_far = if count <= past.taken { count } else { 0 };
            let Judged { outcome, numbers } = session.verdict();
            let fine = outcome == found(so_far) && named(&slots, &taken, &before, so_far, numbers);
            assert!(fine, "verdict {outcome:?} {numbers:?} after {} of {list:?}", past.taken);
            self.handed += 1;
            self.verdicts += 1;
        }
    }

    /// One event handed to the first sessions of a list as a row: its report, and every byte of the list, are what handing it to each by
    /// itself gives.
    fn hand_row(&mut self, list: &mut [Session], size: usize, e: ffi::Event) {
        let mut wanted = list.to_vec();
        let report = each_alone(&mut wanted[..size], e);
        self.rows += 1;
        self.divided += usize::from(report.count > 0 && report.count < size);
        assert_eq!(ffi::take_all(&mut list[..size], e), report, "row of {size}: {e:?}");
        assert!(list == wanted, "a session is not as alone after {e:?} in a row of {size}");
    }
}

/// What a row answers, with each session handed the event by itself; a row that is too long is left as it is.
fn each_alone(row: &mut [Session], e: ffi::Event) -> RowReport {
    if row.len() > ROW {
        return RowReport { number: 18, offset: 0, count: 0, place: 0 };
    }
    let answers: Vec<u8> = row.iter_mut().map(|session| session.take(e)).collect();
    let count = answers.iter().filter(|&&number| number != 0).count();
    let lowest = answers.iter().position(|&number| number != 0);
    let (number, place) = lowest.map_or((0, 0), |i| (answers[i], i + 1));
    RowReport { number, offset: 0, count, place }
}

/// The numbers of an event, as a session takes them.
fn numbers(e: Event) -> ffi::Event {
    ffi::Event::new(e.label.thread, e.label.op, e.label.object, e.height)
}

/// The events of a list that are taken.
fn accepted(list: &[Event]) -> Vec<Label> {
    let mut past = Past::default();
    let mut taken = Vec::new();
    for e in list {
        if past.refusal(e.label) == 0 {
            past.take(e.label);
            taken.push(e.label);
        }
    }
    taken
}

/// A random event: of few threads and objects, so that matches, chains and broken rules are common.
fn event(steps: &mut Steps, threads: u32) -> Event {
    let thread = steps.below(threads) as u8;
    let op = [1, 2, 1, 2, 3, 4, 7, 7, 7, 7, 5, 6][steps.below(12) as usize];
    let object = match op {
        5 | 6 => steps.below(THREADS as u32) as u16,
        _ => steps.below(2) as u16,
    };
    Event { label: Label { op, thread, object }, height: steps.next() as i32 }
}

/// A list of accepted events.
fn good(steps: &mut Steps, threads: u32, size: usize) -> Vec<Event> {
    let mut past = Past::default();
    let mut list = Vec::new();
    // A thread that is joined acts no more, so that a long list needs one that never is.
    while list.len() < size {
        let e = event(steps, threads);
        let last = e.label.op == 6 && steps.below(size as u32 + 4) > 3;
        if past.refusal(e.label) == 0 && !last && !(e.label.op == 6 && e.label.object == 0) {
            past.take(e.label);
            list.push(e);
        }
    }
    list
}

fn put(bytes: &mut Bytes, e: Event, tall: bool) {
    let Label { op, thread, object } = e.label;
    match op {
        7 => bytes.mark(thread, object),
        2 if tall => bytes.write(thread, object as u8, e.height),
        _ => bytes.plain(op, thread, object as u8),
    }
}

fn bytes_of(list: &[Event], tall: bool) -> Vec<u8> {
    let mut bytes = Bytes::default();
    for &e in list {
        put(&mut bytes, e, tall);
    }
    bytes.close()
}

/// A pattern of one to five slots, most of them events of the list.
fn pattern_for(steps: &mut Steps, list: &[Event]) -> Vec<u8> {
    let size = 1 + steps.below(SLOTS as u32);
    let mut slots = Vec::new();
    while slots.len() < size as usize {
        let slot = match list.len() {
            n if n > 0 && steps.below(8) > 0 => list[steps.below(n as u32) as usize],
            _ => event(steps, 3),
        };
        if reference::range(slot.label) == 0 {
            slots.push(slot);
        }
    }
    bytes_of(&slots, false)
}

/// Spoils a row of bytes in one of the ways in which files are spoilt.
fn damage(steps: &mut Steps, bytes: &mut Vec<u8>) {
    let at = steps.below(bytes.len() as u32 + 1) as usize;
    let value = if steps.below(2) == 0 { steps.below(256) as u8 } else { steps.below(9) as u8 };
    match steps.below(5) {
        0 => bytes.truncate(at),
        1 => bytes.insert(at, value),
        2 => bytes.push(value),
        3 if at < bytes.len() => drop(bytes.remove(at)),
        _ if at < bytes.len() => bytes[at] = value,
        _ => bytes.clear(),
    }
}

/// The bytes of a list with events put in that may break a rule, and spoilt where that is asked for.
fn spoil(steps: &mut Steps, list: &mut Vec<Event>, bytes: bool) -> Vec<u8> {
    for _ in 0..steps.below(3) {
        let at = steps.below(list.len() as u32 + 1) as usize;
        list.insert(at, event(steps, 4));
    }
    let mut log = bytes_of(list, true);
    if bytes {
        damage(steps, &mut log);
    }
    log
}

/// A list that lies near one of the orders, or is one: two places exchanged, mostly neighbours; a number twice, missing or any; fewer places or more.
fn near(steps: &mut Steps, orders: &[[u8; PLACES]]) -> Vec<u8> {
    let mut list = orders[steps.below(orders.len() as u32) as usize].to_vec();
    let (i, j) = (steps.below(PLACES as u32) as usize, steps.below(PLACES as u32) as usize);
    match steps.below(9) {
        0..=2 => list.swap(i, (i + 1) % PLACES),
        3 => list.swap(i, j),
        4 => list[i] = list[j],
        5 => list[i] = 0,
        6 => list[i] = (steps.next() >> 24 >> steps.below(8)) as u8,
        7 => list.truncate(i),
        _ => list.extend(vec![list[i]; 1 + j / 4]),
    }
    list
}

/// Every event by its form up to the first that is refused for its form.
fn by_form(log: &[u8]) -> Vec<Event> {
    let mut list = Vec::new();
    let mut at = 0;
    while let Ok(Some((e, next))) = reference::command(log, at, true) {
        list.push(e);
        at = next;
    }
    list
}

/// Short logs, each also handed to a session event by event.
fn short(totals: &mut Totals, steps: &mut Steps) {
    for _ in 0..SHORT {
        let threads = 2 + steps.below(3);
        let size = steps.below(9) as usize;
        let list = good(steps, threads, size);
        let pattern = pattern_for(steps, &list);
        totals.hold(&pattern, &bytes_of(&list, true));
        totals.hand(&pattern, &list);
    }
}

/// Longer logs; the pattern is rarer there, so that some match late and some never.
fn longer(totals: &mut Totals, steps: &mut Steps, inputs: usize, least: u32, most: u32) {
    for _ in 0..inputs {
        let size = (least + steps.below(most - least)) as usize;
        let threads = 2 + steps.below(THREADS as u32 - 1);
        let list = good(steps, threads, size);
        let tail = &list[size - 1 - steps.below(size as u32) as usize..];
        let pattern = pattern_for(steps, tail);
        totals.hold(&pattern, &bytes_of(&list, true));
        if size < 60 {
            totals.hand(&pattern, &list);
        }
    }
}

/// Logs with bytes spoilt, or with events put in that may break a rule.
fn damaged(totals: &mut Totals, steps: &mut Steps) {
    for n in 0..DAMAGED {
        let size = steps.below(if n % 4 == 0 { 120 } else { 9 }) as usize;
        let mut list = good(steps, 4, size);
        let pattern = pattern_for(steps, &list);
        let log = spoil(steps, &mut list, n % 2 == 0);
        totals.hold(&pattern, &log);
        totals.hand(&pattern, &by_form(&log));
    }
}

/// A lock taken by one thread about as often as it can be held, then released about as often, with events between that may break a rule.
fn deep(totals: &mut Totals, steps: &mut Steps) {
    for _ in 0..DEEP {
        let (thread, object) = (steps.below(3) as u8, steps.below(2) as u16);
        let mut list = Vec::new();
        for op in [3, 4] {
            let one = Event { label: Label { op, thread, object }, height: 0 };
            list.extend(vec![one; 252 + steps.below(5) as usize]);
            for _ in 0..steps.below(3) {
                list.push(event(steps, 3));
            }
        }
        let pattern = pattern_for(steps, &list);
        totals.hold(&pattern, &bytes_of(&list, true));
        totals.hand(&pattern, &list);
    }
}

/// An event in numbers, now and then with one that may be past its limit.
fn any_numbers(steps: &mut Steps) -> ffi::Event {
    let mut e = numbers(event(steps, 4));
    match steps.below(12) {
        0 => e.operation = steps.below(10),
        1 => e.thread = steps.below(12),
        2 => e.object = steps.next() >> steps.below(32),
        _ => {}
    }
    e
}

/// A session that was handed one event again and again until it refused.
fn worn(op: u8) -> Session {
    let (mut session, _) = Session::open(&[7, 1, 1, 0, 0]);
    let e = Event { label: Label { op, thread: 0, object: 0 }, height: 0 };
    while session.take(numbers(e)) == 0 {}
    session
}

/// A session with a pattern and a past of its own, good or bad; now and then one of those that are worn.
fn with_past(steps: &mut Steps, worn: &[Session]) -> Session {
    if let Some(session) = worn.get(steps.below(20) as usize) {
        return session.clone();
    }
    let list: Vec<Event> = (0..steps.below(12)).map(|_| event(steps, 4)).collect();
    let (mut session, _) = Session::open(&pattern_for(steps, &list));
    for &e in &list {
        session.take(numbers(e));
    }
    session
}

/// Rows of 0 to 17 sessions, each handed a few events; beside the row lies another session, which must stay as it was.
fn rows(totals: &mut Totals, steps: &mut Steps) {
    let worn = [worn(7), worn(3)];
    for _ in 0..ROWS {
        let size = steps.below(ROW as u32 + 2) as usize;
        let mut list: Vec<Session> = (0..=size).map(|_| with_past(steps, &worn)).collect();
        for _ in 0..4 {
            totals.hand_row(&mut list, size, any_numbers(steps));
        }
    }
}

/// Patterns with bytes spoilt, with no slot or too many.
fn patterns(totals: &mut Totals, steps: &mut Steps) {
    for n in 0..PATTERNS {
        let list = good(steps, 3, 6);
        let mut pattern = match n % 3 {
            0 => bytes_of(&list[..steps.below(7) as usize], false),
            _ => pattern_for(steps, &list),
        };
        if n % 2 == 0 {
            damage(steps, &mut pattern);
        }
        totals.hold(&pattern, &bytes_of(&list, true));
        totals.hand(&pattern, &list);
    }
}

/// The inputs that are timed, and logs on both sides of the event limit.
fn whole(totals: &mut Totals) {
    for input in load::inputs() {
        let count = if input.ending == "late" { input.events } else { 0 };
        assert_eq!(ffi::run(&input.pattern, &input.log).outcome, found(count), "{} {} {}", input.load, input.slots, input.ending);
        totals.hold(&input.pattern, &input.log);
    }
    let input = load::input("Note 11", 5, "never", 1);
    for seed in [0, 1] {
        let mut log = load::note_11(seed, EVENTS);
        totals.hold(&input.pattern, &Bytes(log.0.clone()).close());
        log.mark(0, 0);
        totals.hold(&input.pattern, &log.close());
    }
}

/// Loads of drawn seeds, some with as many events as a log may have; and counts above that, which are refused before the buffer is looked at.
fn loads(totals: &mut Totals, steps: &mut Steps) {
    for n in 0..LOADS {
        let count = if n < 8 { EVENTS - n / 4 } else { steps.below(400) as usize };
        totals.hold_load(steps.next(), count);
    }
    for count in [EVENTS + 1, 2 * EVENTS, 1 << 32, usize::MAX] {
        let mut buffer = [0xAA; 4];
        assert_eq!(ffi::load(0, count, &mut buffer), Err(Refusal { number: 22, offset: 0 }), "load of {count}");
        assert_eq!(buffer, [0xAA; 4], "load of {count}");
    }
}

/// Orders of drawn logs, half of which fill all places; some are longer or spoilt. And of the log with the most orders, no event of which depends on
/// another, and of the longest log.
fn orders(totals: &mut Totals, steps: &mut Steps) {
    for n in 0..ORDERS {
        let size = if n % 2 == 0 { PLACES } else { steps.below(PLACES as u32 + 3) as usize };
        let threads = if n % 100 == 0 { THREADS as u32 } else { 2 + steps.below(3) };
        let mut list = good(steps, threads, size);
        let pattern = pattern_for(steps, &list);
        let log = if n % 4 == 1 { spoil(steps, &mut list, n % 8 == 1) } else { bytes_of(&list, true) };
        totals.hold_orders(steps, &pattern, &log);
    }
    let mut free = Bytes::default();
    for thread in 0..PLACES as u8 {
        free.mark(thread, 0);
    }
    for log in [free, load::note_11(0, EVENTS)] {
        totals.hold_orders(steps, &[7, 7, 0, 0, 7, 0, 0, 0, 0], &log.close());
    }
}

/// The first event of Note 11; the example of the formats' document; and the same with two events that fit the second slot.
fn examples() {
    assert_eq!(load::note_11(0, 1).close(), [7, 0, 6, 0, 0]);
    let pattern = [2, 0, 0, 7, 1, 11, 0, 0];
    let one = [7, 1, 11, 0, 2, 0, 0, 0x70, 0xFE, 0xFF, 0xFF, 0];
    let two = [7, 1, 11, 0, 7, 1, 11, 0, 2, 0, 0, 0x70, 0xFE, 0xFF, 0xFF, 0];
    for (log, count, numbers) in [(&one[..], 2, [2, 1, 0, 0, 0]), (&two[..], 3, [3, 1, 0, 0, 0])] {
        let judged = Judged { outcome: Outcome::Match { count }, numbers };
        assert_eq!(greedy::run(&pattern, log), judged, "(e) on an example");
        assert_eq!(ffi::run(&pattern, log), judged, "(a) on an example");
    }
}

/// Stops the program at the first difference; else says how much was compared.
pub fn all() {
    let mut totals = Totals::default();
    let mut steps = Steps(2024);
    examples();
    short(&mut totals, &mut steps);
    longer(&mut totals, &mut steps, MIDDLE, 9, 200);
    longer(&mut totals, &mut steps, LONG, 201, 3000);
    damaged(&mut totals, &mut steps);
    deep(&mut totals, &mut steps);
    patterns(&mut totals, &mut steps);
    rows(&mut totals, &mut steps);
    whole(&mut totals);
    loads(&mut totals, &mut steps);
    orders(&mut totals, &mut steps);
    let Totals { inputs, matches, nones, refused, handed, verdicts, queries, reasons, replays, rows, divided, loads, orders } = totals;
    let numbers: Vec<String> = (1..15).chain([17]).map(|k| format!("{k}: {}", refused[k])).collect();
    println!("Agreement: {inputs} inputs, (a) to (e) each as the independent implementation says: {matches} match, {nones} none,");
    println!("{} refused (by number, {}). (a) and (e) name the first list each time.", refused.iter().sum::<usize>(), numbers.join(", "));
    println!("Sessions: {handed} events handed over, {verdicts} verdicts looked at; {queries} order queries. {replays} replays, byte by byte.");
    let Reasons { no_fit, too_early, at, decided } = reasons;
    let slots: Vec<String> = at.iter().zip(1..).map(|(n, k)| format!("{k}: {n}")).collect();
    println!("{} reasons, number by number: in {no_fit} no event fits the slot, in {too_early} the last that fits is too early", no_fit + too_early);
    println!("(by slot, {}); and {decided} matches and refusals, with none.", slots.join(", "));
    println!("Rows of 0 to {} sessions: {rows} events, {divided} refused by some and taken by others; each as alone, byte by byte.", ROW + 1);
    println!("{loads} loads, each byte as the rule says, in buffers of three sizes.");
    let Orders { logs, full, given, shown, unreached, long, refused } = orders;
    println!("Orders of {logs} logs, {full} of them with {PLACES} events: {given}, just those that swaps reach, smallest first; {shown} logs have one that");
    println!("holds the pattern, as the run says. {unreached} lists are no order (26); {long} logs are too long (25), {refused} refused.\n");
}
