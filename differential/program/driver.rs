// Goes behind a copy of the original sched.rs, its test module cut off, and guarded.rs.
//
//   driver random LISTS CALLS SEED [always]   writes a script of random call lists of up to 2 CALLS - 1 calls
//   driver limits LISTS CALLS SEED            the same with T 256, E 512 and S 4096, and many threads
//   driver exhaust DEPTH PART PARTS           writes every PARTS-th call list of that length over a small alphabet, for each policy
//   driver answer                             runs a script from standard input on the Rust and writes the answers and states
//
// A script's first line says how many follow. Each has a code and its arguments, in decimal, an absent thread as `-`.
//   0 POLICY QUANTUM COST CORES T E S ENTRY   new        6 TID NUMBER      set_priority
//   1 PARENT ENTRY                            spawn      7 QUANTUM COST    set_timing
//   2 CORE                                    exit       8 CORE TID        force_switch
//   3 CORE TID                                join       9                 end_tick
//   4 CORE                                    retired    10 CORE           close
//   5 CORE                                    yield_now  11                show: the whole state
// A refused `new` leaves the scheduler that was there. With `always` the state is shown after every call, otherwise after the last call of a list and
// now and then before.
// guarded.rs makes the refusals that 01 adds, before the Rust is asked; the Rust then keeps the newest E events and S segments of a core.
use std::fmt::Write as _;
use std::io::{BufRead, Write as _};

struct Rng(u64);

impl Rng {
    fn new(seed: u64) -> Self {
        let mut g = Rng(0x9E37_79B9_7F4A_7C15 ^ seed.wrapping_mul(0xD1B5_4A32_D192_ED03));
        for _ in 0..20 {
            g.below(2);
        }
        g
    }

    fn below(&mut self, n: u64) -> u64 {
        self.0 ^= self.0 << 13;
        self.0 ^= self.0 >> 7;
        self.0 ^= self.0 << 17;
        (self.0 >> 11) % n
    }

    fn one_in(&mut self, n: u64) -> bool {
        self.below(n) == 0
    }
}

fn or_dash<T: std::fmt::Display>(o: Option<T>) -> String {
    o.map_or("-".to_string(), |x| x.to_string())
}

// ---- a script's lines as calls; guarded.rs refuses and makes them

fn made(a: &[Option<u64>]) -> Result<Guarded, u32> {
    let n = |i: usize| a[i].unwrap();
    let cfg = SchedConfig {
        policy: SchedPolicy::ALL[(n(0) % 4) as usize],
        quantum: n(1) as u32,
        switch_cost: n(2) as u32,
    };
    let capacities = Capacities {
        threads: n(4),
        events: n(5),
        segments: n(6),
    };
    Guarded::new(cfg, n(3) as u32, capacities, n(7) as u32)
}

fn call_of(code: u64, a: &[Option<u64>]) -> Call {
    let n = |i: usize| a[i].unwrap() as u32;
    let tid = |i: usize| a[i].map(|x| x as u32);
    match code {
        1 => Call::Spawn(tid(0), n(1)),
        2 => Call::Exit(n(0)),
        3 => Call::Join(n(0), n(1)),
        4 => Call::Retired(n(0)),
        5 => Call::Yield(n(0)),
        6 => Call::Priority(n(0), n(1)),
        7 => Call::Timing(n(0), n(1)),
        8 => Call::Force(n(0), tid(1)),
        9 => Call::Tick,
        _ => Call::Close(n(0)),
    }
}

fn said(answer: Answer) -> String {
    match answer {
        Answer::Ok => "ok".into(),
        Answer::Spawned(tid) => format!("spawned {}", tid),
        Answer::Joined(JoinOutcome::Wait) => "joined wait".into(),
        Answer::Joined(JoinOutcome::Done) => "joined done".into(),
        Answer::Joined(JoinOutcome::Invalid) => "joined invalid".into(),
        Answer::Switched(list) => switched(&list),
    }
}

fn switched(list: &[Switch]) -> String {
    let mut s = String::from("switched");
    for e in list {
        let out = e
            .out
            .map_or("- -".to_string(), |(t, r)| format!("{} {}", t, r.label()));
        write!(s, ", {} {} {}", e.core, out, or_dash(e.inn)).unwrap();
    }
    s
}

// ---- the whole state

fn bit(b: bool) -> u8 {
    b as u8
}

fn write_state(g: &Guarded, o: &mut String) {
    let s = &g.sched;
    let c = s.cfg;
    writeln!(
        o,
        "state {} {} {} {} {} {}",
        s.now,
        bit(g.closed),
        s.context_switches,
        c.policy.as_str(),
        c.quantum,
        c.switch_cost
    )
    .unwrap();
    write!(o, "queue").unwrap();
    for t in &s.ready {
        write!(o, " {}", t).unwrap();
    }
    o.push('\n');
    for (i, core) in s.cores.iter().enumerate() {
        match core {
            CoreState::Idle => write!(o, "core {} idle", i),
            CoreState::Switching { tid, left } => {
                write!(o, "core {} switching {} {}", i, tid, left)
            }
            CoreState::Running { tid, slice } => write!(o, "core {} running {} {}", i, tid, slice),
        }
        .unwrap();
        let (f, k) = (s.flags[i], s.core_ticks[i]);
        writeln!(
            o,
            " marks {}{}{}{} ticks {} {} {}",
            bit(f.exit),
            bit(f.block),
            bit(f.yielded),
            bit(s.progressed[i]),
            k.busy,
            k.switching,
            k.idle
        )
        .unwrap();
    }
    for t in &s.threads {
        write_thread(t, o);
    }
    for e in s
        .events
        .iter()
        .skip(s.events.len().saturating_sub(g.capacities.events as usize))
    {
        write!(o, "event {} {} ", e.tick, e.tid).unwrap();
        match e.kind {
            SchedEventKind::Spawn { parent } => writeln!(o, "spawn {}", or_dash(parent)),
            SchedEventKind::Dispatch { core } => writeln!(o, "dispatch {}", core),
            SchedEventKind::Leave { core, reason } => {
                writeln!(o, "leave {} {}", core, reason.label())
            }
            SchedEventKind::Wake => writeln!(o, "wake"),
            SchedEventKind::Priority { priority } => writeln!(o, "priority {}", priority),
        }
        .unwrap();
    }
    for (i, line) in s.timeline.iter().enumerate() {
        for g in line.iter().skip(line.len().saturating_sub(g.capacities.segments as usize)) {
            match g.lane {
                Lane::Idle => write!(o, "segment {} idle", i),
                Lane::Switch(t) => write!(o, "segment {} switch {}", i, t),
                Lane::Run(t) => write!(o, "segment {} run {}", i, t),
            }
            .unwrap();
            writeln!(o, " {} {}", g.start, g.end).unwrap();
        }
    }
    write_questions(s, o);
}

fn write_thread(t: &ThreadInfo, o: &mut String) {
    let x = t.stats;
    write!(
        o,
        "thread {} {} {} {} ",
        t.tid,
        or_dash(t.parent),
        t.entry_pc,
        t.priority
    )
    .unwrap();
    match t.state {
        ThreadState::Ready => write!(o, "ready"),
        ThreadState::Running(c) => write!(o, "running {}", c),
        ThreadState::Blocked(u) => write!(o, "blocked {}", u),
        ThreadState::Exited => write!(o, "exited"),
    }
    .unwrap();
    write!(
        o,
        " last {} {}",
        or_dash(t.last_core),
        or_dash(t.last_dispatch)
    )
    .unwrap();
    match t.last_leave {
        None => write!(o, " -"),
        Some((n, c, r)) => write!(o, " {} {} {}", n, c, r.label()),
    }
    .unwrap();
    writeln!(
        o,
        " times {} {} {} counts {} {} {} {} {} {} asked {} {}",
        x.arrival,
        or_dash(x.first_run),
        or_dash(x.finish),
        x.run_ticks,
        x.ready_ticks,
        x.blocked_ticks,
        x.dispatches,
        x.preemptions,
        x.yields,
        or_dash(x.response()),
        or_dash(x.turnaround())
    )
    .unwrap();
}

// the questions that are no field: for each core and one more, for each thread and one more
fn write_questions(s: &Scheduler<()>, o: &mut String) {
    write!(
        o,
        "asked {} {}{}{}",
        s.next_tid(),
        bit(s.has_live_threads()),
        bit(s.has_runnable_threads()),
        bit(s.is_deadlocked())
    )
    .unwrap();
    for c in 0..=s.cores.len() {
        write!(
            o,
            " {} {}",
            or_dash(s.running_on(c)),
            or_dash(s.thread_on(c))
        )
        .unwrap();
    }
    for t in 0..=s.threads.len() as u32 {
        write!(o, " {}", or_dash(s.core_of(t))).unwrap();
    }
    o.push('\n');
    let f = s.summary();
    writeln!(
        o,
        "figures {} {} {} {}",
        f.avg_waiting.to_bits(),
        f.avg_response.to_bits(),
        f.avg_turnaround.to_bits(),
        f.utilization.to_bits()
    )
    .unwrap();
}

fn answer() {
    let mut input = std::io::stdin().lock().lines().map(|l| l.unwrap());
    let mut output = std::io::BufWriter::with_capacity(1 << 16, std::io::stdout().lock());
    let count: u64 = input.next().unwrap().parse().unwrap();
    let mut at = made(&[2, 1, 0, 1, 1, 1, 1, 0].map(Some)).unwrap_or_else(|_| unreachable!());
    let mut text = String::new();
    let mut seen = 0;
    for line in input {
        let mut words = line.split(' ');
        let code: u64 = words.next().unwrap().parse().unwrap();
        let args: Vec<Option<u64>> = words.map(|w| w.parse().ok()).collect();
        seen += 1;
        text.clear();
        let answer = match code {
            0 => made(&args).map(|g| {
                at = g;
                "ok".to_string()
            }),
            11 => Ok("shown".to_string()),
            _ => at.call(call_of(code, &args)).map(said),
        };
        match answer {
            Ok(answer) => writeln!(text, "{}", answer).unwrap(),
            Err(k) => writeln!(text, "refused {}", k).unwrap(),
        }
        if code == 11 {
            write_state(&at, &mut text);
        }
        // the reader may have stopped at a difference
        if output.write_all(text.as_bytes()).is_err() {
            std::process::exit(1);
        }
    }
    assert_eq!(seen, count, "the first line says how many follow");
}

// ---- scripts

struct Script {
    text: String,
    lines: u64,
}

impl Script {
    fn new() -> Self {
        Script {
            text: String::new(),
            lines: 0,
        }
    }

    fn line(&mut self, line: String) {
        self.text.push_str(&line);
        self.text.push('\n');
        self.lines += 1;
    }

    fn write(&self) {
        let mut output = std::io::stdout().lock();
        writeln!(output, "{}", self.lines).unwrap();
        output.write_all(self.text.as_bytes()).unwrap();
    }
}

fn random_new(g: &mut Rng, o: &mut Script) -> (u64, u64) {
    let policy = [0, 2, 3, 2, 3, 1][g.below(6) as usize];
    let quantum = match g.below(12) {
        0 => 0,
        1 => 1_000_001,
        2 => 1_000_000,
        _ => 1 + g.below(4),
    };
    let cost = match g.below(16) {
        0 => 10_001,
        1 => 10_000,
        _ => g.below(3),
    };
    let cores = if g.one_in(20) { 9 } else { g.below(9) };
    let small = !g.one_in(8);
    let t = if g.one_in(25) {
        [0, 257][g.below(2) as usize]
    } else if small {
        1 + g.below(9)
    } else {
        1 + g.below(256)
    };
    let e = if g.one_in(25) {
        [0, 513][g.below(2) as usize]
    } else if small {
        1 + g.below(12)
    } else {
        1 + g.below(512)
    };
    let s = if g.one_in(25) {
        [0, 4097][g.below(2) as usize]
    } else if small {
        1 + g.below(4)
    } else {
        1 + g.below(4096)
    };
    let entry = g.below(5);
    o.line(format!(
        "0 {policy} {quantum} {cost} {cores} {t} {e} {s} {entry}"
    ));
    (cores.clamp(1, 8), t.clamp(1, 256))
}

fn random_call(g: &mut Rng, cores: u64, threads: u64) -> String {
    let core = if g.one_in(14) {
        cores + g.below(2)
    } else {
        g.below(cores)
    };
    let core = if g.one_in(200) {
        4_294_967_295
    } else {
        core
    };
    let tid = g.below(threads + 1);
    let some = |g: &mut Rng, n: u64| or_dash((!g.one_in(3)).then_some(n));
    match g.below(100) {
        0..=13 => format!("1 {} {}", some(g, tid), g.below(50)),
        14..=19 => format!("2 {core}"),
        20..=27 => format!("3 {core} {tid}"),
        28..=47 => format!("4 {core}"),
        48..=52 => format!("5 {core}"),
        53..=58 => format!("6 {tid} {}", g.below(14)),
        59..=60 => {
            let quantum = if g.one_in(5) { 1_000_001 } else { g.below(4) };
            let cost = if g.one_in(9) { 10_001 } else { g.below(3) };
            format!("7 {quantum} {cost}")
        }
        61..=67 => format!("8 {core} {}", some(g, tid)),
        68..=98 => "9".to_string(),
        _ => format!("10 {core}"),
    }
}

fn random(lists: u64, calls: u64, seed: u64, always: bool) {
    let mut g = Rng::new(seed);
    let mut o = Script::new();
    for _ in 0..lists {
        let (cores, threads) = random_new(&mut g, &mut o);
        for _ in 0..g.below(2 * calls) {
            if always || g.one_in(25) {
                o.line("11".to_string());
            }
            let call = random_call(&mut g, cores, threads.min(12));
            o.line(call);
        }
        o.line("11".to_string());
    }
    o.write();
}

// Many threads, long queues, rings that fill and wrap: each list spawns first, and ticks more often.
fn limits(lists: u64, calls: u64, seed: u64) {
    let mut g = Rng::new(seed);
    let mut o = Script::new();
    for _ in 0..lists {
        let policy = 1 + g.below(3);
        let cores = 1 + g.below(8);
        let quantum = 1 + g.below(3);
        let cost = g.below(2);
        o.line(format!("0 {policy} {quantum} {cost} {cores} 256 512 4096 0"));
        for _ in 0..g.below(300) {
            let parent = g.below(4);
            o.line(format!("1 {parent} 0"));
        }
        for _ in 0..calls {
            let call = if g.one_in(3) {
                random_call(&mut g, cores, 256)
            } else if g.one_in(2) {
                format!("4 {}", g.below(cores))
            } else {
                "9".to_string()
            };
            if !call.starts_with("10 ") {
                o.line(call);
            }
        }
        o.line("11".to_string());
    }
    o.write();
}

fn exhaust(depth: u32, part: u64, parts: u64) {
    let calls = [
        "1 0 0", "2 0", "2 1", "3 0 1", "3 1 0", "4 0", "4 1", "5 0", "6 1 9", "8 0 -", "8 0 1",
        "9", "10 0",
    ];
    let mut o = Script::new();
    for start in [
        "0 0 1 0 2 3 4 2 0",
        "0 1 1 0 1 3 4 2 0",
        "0 2 1 0 2 3 4 2 0",
        "0 2 2 1 1 3 4 2 0",
        "0 3 1 0 1 3 4 2 0",
        "0 3 1 1 2 3 4 2 0",
    ] {
        let n = calls.len() as u64;
        for first in (0..n.pow(depth)).filter(|k| k % parts == part) {
            o.line(start.to_string());
            let mut k = first;
            for _ in 0..depth {
                o.line(calls[(k % n) as usize].to_string());
                k /= n;
            }
            o.line("11".to_string());
        }
    }
    o.write();
}

fn main() {
    let a: Vec<String> = std::env::args().collect();
    let n = |i: usize| {
        a.get(i)
            .and_then(|x| x.parse().ok())
            .unwrap_or_else(|| panic!("argument {} is a number", i))
    };
    match a.get(1).map(String::as_str) {
        Some("random") => random(n(2), n(3), n(4), a.len() > 5),
        Some("limits") => limits(n(2), n(3), n(4)),
        Some("exhaust") => exhaust(n(2) as u32, n(3), n(4)),
        Some("answer") => answer(),
        _ => panic!("random, limits, exhaust or answer: the head of driver.rs says more"),
    }
}
