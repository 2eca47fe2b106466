// The report program on the Rust module: a script on standard input, the report on standard output. Written from 01's section "Report lines";
// it goes behind sched.rs and guarded.rs. It makes the stored reports and is what the report program's speed is measured against.
use std::io::{BufRead, BufReader, BufWriter, Write};

const BLOCK: usize = 64 * 1024;
const MAX_LINES: u64 = 1_000_000_000_000;
const CAPACITIES: Capacities = Capacities { threads: 256, events: 512, segments: 256 };

// A line with its byte 10; none where it is no line at all (6).
fn text_of(piece: &[u8]) -> Option<&[u8]> {
    let (last, line) = piece.split_last()?;
    if *last != 10 || piece.len() > 256 || line.iter().any(|&b| b > 127) {
        return None;
    }
    Some(line)
}

fn is_white(b: u8) -> bool {
    (9..=13).contains(&b) || b == 32
}

fn trimmed(mut v: &[u8]) -> &[u8] {
    while let [first, rest @ ..] = v {
        if !is_white(*first) {
            break;
        }
        v = rest;
    }
    while let [rest @ .., last] = v {
        if !is_white(*last) {
            break;
        }
        v = rest;
    }
    v
}

fn key_and_value(line: &[u8]) -> Option<(&[u8], &[u8])> {
    let at = line.iter().position(|&b| b == b'=')?;
    Some((&line[..at], trimmed(&line[at + 1..])))
}

fn number(f: &[u8]) -> Result<u32, u32> {
    std::str::from_utf8(f).ok().and_then(|s| s.parse().ok()).ok_or(8)
}

fn maybe(f: &[u8]) -> Result<Option<u32>, u32> {
    if f.is_empty() { Ok(None) } else { number(f).map(Some) }
}

fn one(v: &[u8]) -> Result<&[u8], u32> {
    if v.contains(&b',') { Err(6) } else { Ok(v) }
}

fn two(v: &[u8]) -> Result<(&[u8], &[u8]), u32> {
    let at = v.iter().position(|&b| b == b',').ok_or(6u32)?;
    Ok((&v[..at], one(&v[at + 1..])?))
}

fn ranged(v: &[u8], low: u32, high: u32) -> Result<u32, u32> {
    let n = number(v)?;
    if (low..=high).contains(&n) { Ok(n) } else { Err(1) }
}

fn call_of(line: &[u8]) -> Result<Call, u32> {
    let (key, v) = key_and_value(line).ok_or(6u32)?;
    match key {
        b"spawn" => Ok(Call::Spawn(maybe(one(v)?)?, 0)),
        b"exit" => Ok(Call::Exit(number(one(v)?)?)),
        b"join" => {
            let (c, t) = two(v)?;
            Ok(Call::Join(number(c)?, number(t)?))
        }
        b"retired" => Ok(Call::Retired(number(one(v)?)?)),
        b"yield" => Ok(Call::Yield(number(one(v)?)?)),
        b"prio" => {
            let (t, n) = two(v)?;
            Ok(Call::Priority(number(t)?, number(n)?))
        }
        b"force" => {
            let (c, t) = two(v)?;
            Ok(Call::Force(number(c)?, maybe(t)?))
        }
        b"tick" => if v.is_empty() { Ok(Call::Tick) } else { Err(6) },
        b"close" => Ok(Call::Close(number(one(v)?)?)),
        _ => Err(6),
    }
}

struct Head {
    cfg: SchedConfig,
    past: u32,
}

impl Head {
    // The number of cores where the line is `cores=`; the order is 6, then 7 or 8, then 1 or 2.
    fn line(&mut self, line: &[u8]) -> Result<Option<u32>, u32> {
        let (key, v) = key_and_value(line).ok_or(6u32)?;
        let place = match key {
            b"sched" => 1,
            b"sched_quantum" => 2,
            b"sched_switch_cost" => 3,
            b"cores" => {
                let n = number(one(v)?)?;
                return if n > 8 { Err(2) } else { Ok(Some(n)) };
            }
            _ => return Err(6),
        };
        if self.past >= place {
            return Err(6);
        }
        self.past = place;
        match place {
            1 => {
                let word = std::str::from_utf8(v).map_err(|_| 7u32)?;
                self.cfg.policy = SchedPolicy::from_str(word).ok_or(7u32)?;
            }
            2 => self.cfg.quantum = ranged(v, 1, 1_000_000)?,
            _ => self.cfg.switch_cost = ranged(v, 0, 10_000)?,
        }
        Ok(None)
    }
}

fn write_switch(o: &mut impl Write, now: u64, e: &Switch) -> std::io::Result<()> {
    write!(o, "switch={},{},", now, e.core)?;
    match e.out {
        Some((t, r)) => write!(o, "{},{},", t, r.label())?,
        None => o.write_all(b"-,-,")?,
    }
    match e.inn {
        Some(t) => writeln!(o, "{}", t),
        None => o.write_all(b"-\n"),
    }
}

fn write_answer(o: &mut impl Write, line: u64, now: u64, answer: Result<Answer, u32>) -> std::io::Result<()> {
    match answer {
        Err(k) => writeln!(o, "refused={},{}", line, k),
        Ok(Answer::Ok) | Ok(Answer::Spawned(_)) => Ok(()),
        Ok(Answer::Joined(j)) => {
            let word = match j {
                JoinOutcome::Wait => "wait",
                JoinOutcome::Done => "done",
                JoinOutcome::Invalid => "invalid",
            };
            writeln!(o, "joined={},{}", line, word)
        }
        Ok(Answer::Switched(list)) => list.iter().try_for_each(|e| write_switch(o, now, e)),
    }
}

// In tenths, rounded down; 0.0 over nobody.
fn mean(sum: u64, count: u64) -> String {
    let tenths = if count == 0 { 0 } else { sum * 10 / count };
    format!("{}.{}", tenths / 10, tenths % 10)
}

fn write_summary(o: &mut impl Write, g: &Guarded) -> std::io::Result<()> {
    let s = &g.sched;
    let all = s.threads.iter().map(|t| t.stats);
    let finished = all.clone().filter_map(|x| x.finish.map(|f| f - x.arrival));
    let responded = all.clone().filter_map(|x| x.first_run.map(|f| f - x.arrival));
    let (n, f, r) = (s.threads.len() as u64, finished.clone().count() as u64, responded.clone().count() as u64);
    writeln!(o, "threads={}", n)?;
    writeln!(o, "finished={}", f)?;
    writeln!(o, "ticks={}", s.now)?;
    writeln!(o, "context_switches={}", s.context_switches)?;
    writeln!(o, "preemptions={}", all.clone().map(|x| x.preemptions as u64).sum::<u64>())?;
    writeln!(o, "waiting={}", mean(all.clone().map(|x| x.ready_ticks).sum(), n))?;
    writeln!(o, "response={}", mean(responded.sum(), r))?;
    writeln!(o, "turnaround={}", mean(finished.sum(), f))?;
    writeln!(o, "busy={}", s.core_ticks.iter().map(|c| c.busy).sum::<u64>())?;
    writeln!(o, "core_ticks={}", s.core_ticks.iter().map(|c| c.busy + c.switching + c.idle).sum::<u64>())
}

fn run(input: &mut impl BufRead, o: &mut impl Write) -> std::io::Result<()> {
    let mut head = Head { cfg: SchedConfig { policy: SchedPolicy::from_str("off").unwrap(), quantum: 50, switch_cost: 0 }, past: 0 };
    let mut made: Option<Guarded> = None;
    let mut piece = Vec::new();
    let mut line = 0;
    loop {
        piece.clear();
        // a line that is too long need not be read to its end: it ends the calls
        std::io::Read::take(&mut *input, 257).read_until(10, &mut piece)?;
        line += 1;
        if piece.is_empty() {
            break;
        }
        let text = if line <= MAX_LINES { text_of(&piece) } else { None };
        match &mut made {
            None => match text.ok_or(6u32).and_then(|l| head.line(l)) {
                Err(k) => return writeln!(o, "refused={},{}", line, k),
                Ok(None) => {}
                Ok(Some(cores)) => match Guarded::new(head.cfg, cores, CAPACITIES, 0) {
                    Err(k) => return writeln!(o, "refused={},{}", line, k),
                    Ok(g) => made = Some(g),
                },
            },
            Some(g) => match text.ok_or(6u32).and_then(call_of) {
                Err(k) => {
                    writeln!(o, "refused={},{}", line, k)?;
                    break;
                }
                Ok(c) => {
                    let answer = g.call(c);
                    write_answer(o, line, g.sched.now, answer)?;
                }
            },
        }
    }
    match &made {
        None => writeln!(o, "refused={},6", line),
        Some(g) => write_summary(o, g),
    }
}

fn main() {
    let mut input = BufReader::with_capacity(BLOCK, std::io::stdin().lock());
    let mut o = BufWriter::with_capacity(BLOCK, std::io::stdout().lock());
    let _ = run(&mut input, &mut o).and_then(|()| o.flush());
}
