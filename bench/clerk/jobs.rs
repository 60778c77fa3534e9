//! The commands that a clerk works at, and what houses are asked for them.

use std::collections::{BTreeSet, HashMap, HashSet};
use std::io::Write;

use crate::answered::{self, is_last};
use crate::commands::{self, Done};
use crate::heard::{Halt, Heard, Look};
use crate::house::Posted;
use crate::house::Refusal::{self, At};
use crate::script::{self, Fault};
use crate::tables::Pointer;

/// So often a plan is worked out where a house did not do a line of it.
const MOST_TRIES: u32 = 8;

/// What a question is for.
enum Topic {
    /// Where the root directory is, and the houses that are asked next.
    Root(Vec<u8>),
    Look(Look),
    /// A line of a plan.
    Step,
}

struct Question {
    job: u64,
    topic: Topic,
    house: u8,
    /// Whether the whole directory is asked, since the house knows no other question.
    whole: bool,
    lines: Vec<Vec<u8>>,
}

/// A command: what was heard for it, how many questions wait, and its plan.
#[derive(Default)]
struct Job {
    words: Vec<Vec<u8>>,
    high: bool,
    heard: Heard,
    /// The latest list of the root directory that was heard, with its epoch.
    latest: Option<(u64, Pointer<'static>)>,
    waits: usize,
    plan: Vec<Vec<u8>>,
    planned: usize,
    tries: u32,
    /// Whether a line was sent of which nobody knows whether it was done.
    doubt: bool,
}

impl Job {
    fn is_update(&self) -> bool {
        commands::is_update(&self.words[0])
    }

    /// Whether its lines may be sent again where nobody knows whether they were done: so a second one takes away nothing that another client
    /// gave.
    fn may_repeat(&self) -> bool {
        !matches!(self.words[0].as_slice(), b"delete" | b"put" | b"clear")
    }

    fn doubted(&self, said: &str) -> String {
        format!("{said}{}", if self.doubt { " doubt" } else { "" })
    }
}

/// A clerk: the house that it asks first, and those that it asks where the root directory is.
pub struct Clerk<W> {
    near: u8,
    houses: Vec<u8>,
    /// Where the root directory was for the last command.
    root: Option<Pointer<'static>>,
    jobs: HashMap<u64, Job>,
    questions: HashMap<u64, Question>,
    asked: u64,
    /// The houses that know neither `show` nor `status`.
    old: BTreeSet<u8>,
    pub sink: W,
}

impl<W: Write> Clerk<W> {
    pub fn new(near: u8, mut houses: Vec<u8>, sink: W) -> Clerk<W> {
        houses.sort_by_key(|house| *house != near);
        Clerk { near, houses, root: None, jobs: HashMap::new(), questions: HashMap::new(), asked: 0, old: BTreeSet::new(), sink }
    }

    /// Reads `do K COMMAND`, `hear Q LINE` or `down Q`, and passes over all else.
    pub fn read(&mut self, line: &[u8]) {
        let mut parts = line.splitn(3, |b| *b == b' ');
        let (word, number) = (parts.next(), parts.next().and_then(script::number));
        match (word, number, parts.next()) {
            (Some(b"do"), Some(number), Some(command)) => self.begin(number, command),
            (Some(b"hear"), Some(number), Some(line)) => self.hear(number, line),
            (Some(b"down"), Some(number), None) => self.answered(number, false),
            _ => {}
        }
    }

    // ---- what it writes

    fn say(&mut self, job: u64, line: &[u8]) {
        let _ = write!(self.sink, "say {job} ");
        let _ = self.sink.write_all(line);
        let _ = self.sink.write_all(b"\n");
    }

    fn end(&mut self, number: u64, last: &str) {
        self.say(number, last.as_bytes());
        self.jobs.remove(&number);
    }

    fn ask(&mut self, number: u64, house: u8, topic: Topic) {
        let Some(job) = self.jobs.get_mut(&number) else { return };
        job.waits += 1;
        self.asked += 1;
        let whole = self.old.contains(&house) && !matches!(topic, Topic::Step);
        let line = match &topic {
            Topic::Step => String::from_utf8_lossy(&job.plan[0]).into_owned(),
            Topic::Root(_) if whole => "dump 1".to_string(),
            Topic::Root(_) => "status 1".to_string(),
            Topic::Look(look) if whole => format!("dump {}", look.dir),
            Topic::Look(look) => {
                format!("show {} {} {}", if job.high { "high" } else { "low" }, look.dir, String::from_utf8_lossy(&look.name))
            }
        };
        let _ = writeln!(self.sink, "ask {} {number} {house} {line}", self.asked);
        self.questions.insert(self.asked, Question { job: number, topic, house, whole, lines: Vec::new() });
    }

    // ---- commands

    fn begin(&mut self, number: u64, command: &[u8]) {
        if self.jobs.contains_key(&number) {
            return;
        }
        let words: Vec<Vec<u8>> = command.split(|b| *b == b' ').filter(|word| !word.is_empty()).map(<[u8]>::to_vec).collect();
        let Some(first) = words.first() else { return self.say(number, b"fault UnknownCommand 1") };
        let high = !commands::is_question(first) || words.get(1).is_some_and(|word| word == b"high");
        let root = self.root.as_ref().filter(|_| !high).map(|root| Some(root.lent().into_kept()));
        let heard = Heard::new((!high).then_some(self.near), root);
        self.jobs.insert(number, Job { words, high, heard, ..Job::default() });
        self.go_on(number);
    }

    /// Comes to the end of a command by what was heard so far, or asks for all that it lacks.
    fn go_on(&mut self, number: u64) {
        let Some(job) = self.jobs.get_mut(&number) else { return };
        match commands::outcome(&job.heard, &job.words) {
            Err(Fault(reason, place)) => self.end(number, &format!("fault {reason} {place}")),
            Ok(Err(halts)) => self.halt(number, halts),
            Ok(Ok(Done::Plan(house, lines))) => {
                (job.planned, job.plan) = (lines.len(), lines);
                self.ask(number, house, Topic::Step);
            }
            Ok(Ok(Done::Text(text))) => {
                for line in text.split(|b| *b == b'\n').filter(|line| !line.is_empty()) {
                    self.say(number, line.strip_prefix(b"0 ").unwrap_or(line));
                }
                self.jobs.remove(&number);
            }
        }
    }

    fn halt(&mut self, number: u64, halts: Vec<Halt>) {
        let mut asked = HashSet::new();
        for halt in halts {
            match halt {
                Halt::Refused(refusal) => return self.refuse(number, &refusal),
                Halt::LacksRoot => return self.ask_root(number),
                Halt::Lacks(look) => {
                    // (one answer of a house that is asked for all has all names)
                    let name = if self.old.contains(&look.house) { &[][..] } else { &look.name };
                    if asked.insert((look.dir, look.house, name.to_vec())) {
                        self.ask(number, look.house, Topic::Look(look));
                    }
                }
            }
        }
    }

    fn refuse(&mut self, number: u64, refusal: &Refusal) {
        if matches!(refusal, At("Unreachable", _)) {
            self.root = None;
        }
        let said = self.jobs.get(&number).map_or(String::new(), |job| job.doubted(&refusal.to_string()));
        self.end(number, &said);
    }

    /// Asks where the root directory is: at low confidence one house after the other, at high all at once.
    fn ask_root(&mut self, number: u64) {
        let Some(job) = self.jobs.get_mut(&number) else { return };
        if self.houses.is_empty() {
            job.heard.root = Some(None);
            return self.go_on(number);
        }
        if job.high {
            self.houses.clone().into_iter().for_each(|house| self.ask(number, house, Topic::Root(Vec::new())));
        } else if let Some((first, rest)) = self.houses.split_first() {
            let (first, rest) = (*first, rest.to_vec());
            self.ask(number, first, Topic::Root(rest));
        }
    }

    // ---- answers

    /// A line of an answer to a question.
    fn hear(&mut self, number: u64, line: &[u8]) {
        let Some(question) = self.questions.get_mut(&number) else { return };
        question.lines.push(line.to_vec());
        if is_last(line) {
            self.answered(number, true);
        }
    }

    /// A question has its whole answer, or its house is not reached.
    fn answered(&mut self, number: u64, is_reached: bool) {
        let Some(Question { job: at, topic, house, whole, lines }) = self.questions.remove(&number) else { return };
        let Some(job) = self.jobs.get_mut(&at) else { return };
        job.waits -= 1;
        if !is_reached {
            // (it may be another program when it is up again)
            self.old.remove(&house);
            job.heard.miss(house);
        } else if !whole && answered::is_unknown(&lines) && !matches!(topic, Topic::Step) {
            self.old.insert(house);
            return self.ask(at, house, topic);
        }
        match topic {
            Topic::Root(rest) => {
                let line = if whole { lines.first() } else { lines.last() };
                let read = if whole { answered::root_of_dump } else { answered::root };
                self.hear_root(at, line.filter(|_| is_reached).and_then(|line| read(line)), rest);
            }
            Topic::Look(look) => {
                if is_reached && whole {
                    job.heard.hear_whole(look.dir, house, answered::dumped(&lines, job.high, house));
                } else if is_reached {
                    job.heard.hear(look, answered::shown(&lines));
                }
                if job.waits == 0 {
                    self.go_on(at);
                }
            }
            Topic::Step => self.hear_step(at, house, lines.last().filter(|_| is_reached)),
        }
    }

    fn hear_root(&mut self, number: u64, heard: Option<(u64, Pointer<'static>)>, rest: Vec<u8>) {
        let Some(job) = self.jobs.get_mut(&number) else { return };
        if let Some((epoch, pointer)) = heard {
            if job.latest.as_ref().is_none_or(|(latest, _)| *latest < epoch) {
                job.latest = Some((epoch, pointer));
            }
        }
        if job.waits > 0 {
            return;
        }
        if let (Some((next, rest)), None) = (rest.split_first(), &job.latest) {
            let (next, rest) = (*next, rest.to_vec());
            return self.ask(number, next, Topic::Root(rest));
        }
        let root = job.latest.take().map(|(_, pointer)| pointer);
        self.root = root.as_ref().map(|root| root.lent().into_kept());
        job.heard.root = Some(root);
        self.go_on(number);
    }

    /// What a house answered to a line of a plan.
    fn hear_step(&mut self, number: u64, house: u8, last: Option<&Vec<u8>>) {
        let Some(job) = self.jobs.get_mut(&number) else { return };
        let Some(line) = last else {
            job.doubt = true;
            return if job.may_repeat() { self.plan_again(number, "refused Down") } else { self.end(number, "refused Down doubt") };
        };
        let said = String::from_utf8_lossy(line).into_owned();
        match said.as_str() {
            "refused Forbidden" => {
                let said = job.doubted(&said);
                self.end(number, &said);
            }
            "refused StampsSpent" if !job.is_update() => {
                let done = job.planned - job.plan.len();
                self.refuse(number, &Refusal::Spent(done, Posted(1..=0)));
            }
            // (an update by a full name is refused as the house says; a plan may come out otherwise now)
            "refused EntryExists" | "refused NoSuchEntry" | "refused WrongKind" | "refused StampsSpent" if job.is_update() => {
                let said = job.doubted(&said);
                self.end(number, &said);
            }
            _ if said.starts_with("ok") => {
                job.plan.remove(0);
                if !job.plan.is_empty() {
                    return self.ask(number, house, Topic::Step);
                }
                let said = if job.is_update() { said } else { format!("ok {}", job.planned) };
                self.end(number, &said);
            }
            // (what no house says is as good as nothing)
            _ => self.plan_again(number, if line.starts_with(b"refused ") || line == b"refused" { &said } else { "refused Down" }),
        }
    }

    /// Works a plan out again, of what houses say now.
    fn plan_again(&mut self, number: u64, why: &str) {
        self.root = None;
        let Some(job) = self.jobs.get_mut(&number) else { return };
        job.tries += 1;
        if job.tries >= MOST_TRIES {
            let said = job.doubted(why);
            return self.end(number, &said);
        }
        (job.heard, job.latest) = (Heard::default(), None);
        self.go_on(number);
    }
}
