// Appended to a copy of the original sched.rs, its test module cut off. Random call lists are run on the Rust behind the refusals that 01
// adds, and printed as tests of the definition: `told` is the list of answers, `after` the whole state, `asked` the questions, `bits` the
// summary's figures. Arguments: lists, calls in each, seed.
struct Rng(u64);
impl Rng {
    fn next(&mut self, n: u64) -> u64 {
        self.0 ^= self.0 << 13;
        self.0 ^= self.0 >> 7;
        self.0 ^= self.0 << 17;
        (self.0 >> 11) % n
    }
}
fn opt<T: std::fmt::Display>(o: Option<T>) -> String {
    match o {
        None => "none".into(),
        Some(x) => format!("(some {})", x),
    }
}
fn list(v: Vec<String>) -> String {
    let mut s = String::from("(");
    for x in &v {
        s += x;
        s += " ∷ ";
    }
    s += "[])";
    s
}
fn reason(r: LeaveReason) -> &'static str {
    match r {
        LeaveReason::Exit => "Exit",
        LeaveReason::Block => "Block",
        LeaveReason::Yield => "Yield",
        LeaveReason::Quantum => "Quantum",
        LeaveReason::Preempt => "Preempt",
        LeaveReason::Forced => "Forced",
    }
}
fn sw(v: &[Switch]) -> String {
    let l = list(
        v.iter()
            .map(|s| {
                format!(
                    "record {{ core = {}; out = {}; inn = {} }}",
                    s.core,
                    match s.out {
                        None => "none".to_string(),
                        Some((t, r)) =>
                            format!("some (record {{ tid = {}; reason = {} }})", t, reason(r)),
                    },
                    opt(s.inn)
                )
            })
            .collect(),
    );
    format!("switched {}", l)
}
struct Wrap {
    s: Scheduler<()>,
    cap_t: usize,
    cap_e: usize,
    cap_s: usize,
    closed: bool,
}
impl Wrap {
    fn gone(&self, c: usize) -> bool {
        self.s.flags[c].exit || self.s.flags[c].block
    }
    fn idle(&self, c: usize) -> bool {
        self.s.cores[c] == CoreState::Idle
    }
    fn running(&self, c: usize) -> bool {
        matches!(self.s.cores[c], CoreState::Running { .. })
    }
    // returns the call's text and the answer's text
    fn call(&mut self, g: &mut Rng) -> (String, String) {
        let nc = self.s.cores.len();
        let c = if g.next(12) == 0 {
            nc
        } else {
            g.next(nc as u64) as usize
        };
        let nt = self.s.threads.len();
        let t = g.next(nt as u64 + 1) as u32;
        let no_core = c >= nc;
        let k = g.next(100);
        if k < 14 {
            let p = if g.next(3) == 0 { None } else { Some(t) };
            let e = g.next(50) as u32;
            let txt = format!("spawn {} {}", opt(p), e);
            if self.closed {
                return (txt, "refused 11".into());
            }
            if nt >= self.cap_t {
                return (txt, "refused 17".into());
            }
            let id = self.s.spawn(p, e, ());
            (txt, format!("spawned {}", id))
        } else if k < 20 {
            let txt = format!("exit {}", c);
            if no_core {
                return (txt, "refused 4".into());
            }
            if self.closed {
                return (txt, "refused 11".into());
            }
            if self.gone(c) {
                return (txt, "refused 12".into());
            }
            if self.idle(c) {
                return (txt, "refused 13".into());
            }
            self.s.exit(c);
            (txt, "ok".into())
        } else if k < 28 {
            let txt = format!("join {} {}", c, t);
            if no_core {
                return (txt, "refused 4".into());
            }
            if self.closed {
                return (txt, "refused 11".into());
            }
            if self.gone(c) {
                return (txt, "refused 12".into());
            }
            if !self.running(c) {
                return (txt, "refused 13".into());
            }
            let o = self.s.join(c, t);
            (txt, format!("joined {:?}", o))
        } else if k < 46 {
            let txt = format!("retired {}", c);
            if no_core {
                return (txt, "refused 4".into());
            }
            if self.closed {
                return (txt, "refused 11".into());
            }
            self.s.retired(c);
            (txt, "ok".into())
        } else if k < 51 {
            let txt = format!("yield {}", c);
            if no_core {
                return (txt, "refused 4".into());
            }
            if self.closed {
                return (txt, "refused 11".into());
            }
            if self.gone(c) {
                return (txt, "refused 12".into());
            }
            if !self.running(c) {
                return (txt, "refused 13".into());
            }
            self.s.yield_now(c);
            (txt, "ok".into())
        } else if k < 57 {
            let n = g.next(14) as u32;
            let txt = format!("priority {} {}", t, n);
            if t as usize >= nt {
                return (txt, "refused 5".into());
            }
            if self.closed {
                return (txt, "refused 11".into());
            }
            self.s.set_priority(t, n);
            (txt, "ok".into())
        } else if k < 59 {
            let q = if g.next(4) == 0 {
                1_000_001
            } else {
                g.next(4) as u32
            };
            let w = g.next(3) as u32;
            let txt = format!("timing {} {}", q, w);
            if q > 1_000_000 {
                return (txt, "refused 1".into());
            }
            if self.closed {
                return (txt, "refused 11".into());
            }
            self.s.set_timing(q, w);
            (txt, "ok".into())
        } else if k < 66 {
            let n = if g.next(2) == 0 { None } else { Some(t) };
            let txt = format!("force {} {}", c, opt(n));
            if no_core {
                return (txt, "refused 4".into());
            }
            if self.closed {
                return (txt, "refused 11".into());
            }
            if (0..nc).any(|i| self.gone(i)) {
                return (txt, "refused 12".into());
            }
            if matches!(self.s.cores[c], CoreState::Switching { .. }) {
                return (txt, "refused 14".into());
            }
            match n {
                Some(x) => {
                    if !self.s.ready.contains(&x) {
                        return (txt, "refused 15".into());
                    }
                }
                None => {
                    if self.s.ready.is_empty() {
                        return (txt, "refused 16".into());
                    }
                }
            }
            let v = self.s.force_switch(c, n).unwrap();
            (txt, sw(&v))
        } else if k < 99 || g.next(6) != 0 {
            if self.closed {
                return ("tick".into(), "refused 11".into());
            }
            let v = self.s.end_tick();
            ("tick".into(), sw(&v))
        } else {
            let txt = format!("close {}", c);
            if no_core {
                return (txt, "refused 4".into());
            }
            if self.closed {
                return (txt, "refused 11".into());
            }
            if self.gone(c) {
                return (txt, "refused 12".into());
            }
            if self.idle(c) {
                return (txt, "refused 13".into());
            }
            self.s.close(c);
            self.closed = true;
            (txt, "ok".into())
        }
    }
    fn state(&self) -> String {
        let s = &self.s;
        let cells = list((0..s.cores.len()).map(|i| { let st = match s.cores[i] { CoreState::Idle => "Idle".to_string(), CoreState::Switching { tid, left } => format!("Switching {} {}", tid, left), CoreState::Running { tid, slice } => format!("Running {} {}", tid, slice) };
            format!("record {{ state = {}; exits = {}; blocks = {}; yields = {}; progressed = {} }}", st, s.flags[i].exit, s.flags[i].block, s.flags[i].yielded, s.progressed[i]) }).collect());
        let queue = list(s.ready.iter().map(|t| t.to_string()).collect());
        let threads = list(s.threads.iter().map(|t| {
            let life = match t.state { ThreadState::Ready => "Ready".to_string(), ThreadState::Exited => "Exited".into(), ThreadState::Running(c) => format!("OnCore {}", c), ThreadState::Blocked(u) => format!("Blocked {}", u) };
            let leave = match t.last_leave { None => "none".to_string(), Some((n, c, r)) => format!("some (record {{ tick = {}; core = {}; reason = {} }})", n, c, reason(r)) };
            let x = t.stats;
            format!("record {{ tid = {}; parent = {}; entry = {}; priority = {}; state = {}; last = record {{ core = {}; dispatch = {}; leave = {} }}; times = record {{ arrival = {}; first_run = {}; finish = {} }}; counts = record {{ run = {}; ready = {}; blocked = {}; dispatches = {}; preemptions = {}; yields = {} }} }}",
                t.tid, opt(t.parent), t.entry_pc, t.priority, life, opt(t.last_core), opt(t.last_dispatch), leave, x.arrival, opt(x.first_run), opt(x.finish), x.run_ticks, x.ready_ticks, x.blocked_ticks, x.dispatches, x.preemptions, x.yields)
        }).collect());
        let ticks = list(
            s.core_ticks
                .iter()
                .map(|c| {
                    format!(
                        "record {{ busy = {}; switching = {}; idle = {} }}",
                        c.busy, c.switching, c.idle
                    )
                })
                .collect(),
        );
        let lines = list(
            s.timeline
                .iter()
                .map(|l| {
                    let skip = l.len().saturating_sub(self.cap_s);
                    list(
                        l.iter()
                            .skip(skip)
                            .map(|g| {
                                let lane = match g.lane {
                                    Lane::Idle => "IdleLane".to_string(),
                                    Lane::Switch(t) => format!("SwitchLane {}", t),
                                    Lane::Run(t) => format!("RunLane {}", t),
                                };
                                format!(
                                    "record {{ lane = {}; start = {}; end = {} }}",
                                    lane, g.start, g.end
                                )
                            })
                            .collect(),
                    )
                })
                .collect(),
        );
        let skip = s.events.len().saturating_sub(self.cap_e);
        let log = list(
            s.events
                .iter()
                .skip(skip)
                .map(|e| {
                    let k = match e.kind {
                        SchedEventKind::Spawn { parent } => format!("Spawned {}", opt(parent)),
                        SchedEventKind::Dispatch { core } => format!("Dispatched {}", core),
                        SchedEventKind::Leave { core, reason: r } => {
                            format!("Departed {} {}", core, reason(r))
                        }
                        SchedEventKind::Wake => "Woken".into(),
                        SchedEventKind::Priority { priority } => {
                            format!("Reprioritised {}", priority)
                        }
                    };
                    format!(
                        "record {{ tick = {}; tid = {}; kind = {} }}",
                        e.tick, e.tid, k
                    )
                })
                .collect(),
        );
        let pol = match s.cfg.policy {
            SchedPolicy::Off => "Off",
            SchedPolicy::Fifo => "Fifo",
            SchedPolicy::RoundRobin => "RoundRobin",
            SchedPolicy::Priority => "Priority",
        };
        format!("record {{ config = record {{ policy = {}; quantum = {}; cost = {}; cap_t = {}; cap_e = {}; cap_s = {} }}; cores = {}; queue = {}; accounts = record {{ threads = {}; ticks = {}; timelines = {}; log = {}; context_switches = {} }}; now = {}; closed = {} }}",
            pol, s.cfg.quantum, s.cfg.switch_cost, self.cap_t, self.cap_e, self.cap_s, cells, queue, threads, ticks, lines, log, s.context_switches, s.now, self.closed)
    }
}
fn bool_list(v: Vec<bool>) -> String {
    list(v.iter().map(|b| b.to_string()).collect())
}
// the read-only questions: for each core and one more, for each thread and one more
fn asked(s: &Scheduler<()>, cap_s: usize) -> String {
    let (nc, nt) = (s.cores.len(), s.threads.len() as u32);
    let cores = |f: &dyn Fn(usize) -> Option<u32>| list((0..=nc).map(|c| opt(f(c))).collect());
    let times = |f: &dyn Fn(&ThreadInfo) -> Option<u64>| {
        list(s.threads.iter().map(|t| opt(f(t))).collect())
    };
    format!("record {{ next = {}; running = {}; on = {}; core = {}; segments = {}; left = {}; response = {}; turnaround = {} }}",
        s.next_tid(), cores(&|c| s.running_on(c)), cores(&|c| s.thread_on(c)),
        list((0..=nt).map(|t| opt(s.core_of(t))).collect()),
        list((0..=nc).map(|c| s.timeline(c).count().min(cap_s).to_string()).collect()),
        bool_list(vec![s.has_live_threads(), s.has_runnable_threads(), s.is_deadlocked()]),
        times(&|t| t.stats.response()), times(&|t| t.stats.turnaround()))
}
// the definition keeps the newest S segments of a core
fn asked_kept(x: &Wrap) -> String {
    asked(&x.s, x.cap_s)
}
fn bits(s: &Scheduler<()>) -> String {
    let m = s.summary();
    list(
        [
            m.avg_waiting,
            m.avg_response,
            m.avg_turnaround,
            m.utilization,
        ]
        .iter()
        .map(|f| f.to_bits().to_string())
        .collect(),
    )
}
fn main() {
    let a: Vec<String> = std::env::args().collect();
    let n: u64 = a[1].parse().unwrap();
    let len: u64 = a[2].parse().unwrap();
    let seed: u64 = a[3].parse().unwrap();
    let mut g = Rng(0x9E3779B97F4A7C15 ^ seed.wrapping_mul(0xD1B54A32D192ED03));
    for _ in 0..20 {
        g.next(2);
    }
    for i in 0..n {
        let pol = [
            SchedPolicy::Off,
            SchedPolicy::RoundRobin,
            SchedPolicy::Priority,
            SchedPolicy::RoundRobin,
            SchedPolicy::Priority,
            SchedPolicy::Fifo,
        ][g.next(6) as usize];
        let q = 1 + g.next(4) as u32;
        let w = g.next(3) as u32;
        let cores = g.next(5) as usize;
        let (ct, ce, cs) = (
            3 + g.next(6) as usize,
            1 + g.next(12) as usize,
            1 + g.next(4) as usize,
        );
        let entry = g.next(9) as u32;
        let mut x = Wrap {
            s: Scheduler::new(
                SchedConfig {
                    policy: pol,
                    quantum: q,
                    switch_cost: w,
                },
                cores,
                entry,
            ),
            cap_t: ct,
            cap_e: ce,
            cap_s: cs,
            closed: false,
        };
        let mut calls = vec![];
        let mut answers = vec![];
        for _ in 0..len {
            let (c, r) = x.call(&mut g);
            calls.push(c);
            answers.push(r);
        }
        let p = match pol {
            SchedPolicy::Off => "Off",
            SchedPolicy::Fifo => "Fifo",
            SchedPolicy::RoundRobin => "RoundRobin",
            SchedPolicy::Priority => "Priority",
        };
        println!(
            "abbrev script{i} : List Call\nscript{i} = {}\n",
            list(calls)
        );
        println!(
            "abbrev made{i} : Made\nmade{i} = new {p} {q} {w} {cores} {ct} {ce} {cs} {entry}\n"
        );
        println!(
            "answers{i} : told made{i} script{i} ≡ {}\nunfolding compute\nanswers{i} = refl\n",
            list(answers)
        );
        println!("asked{i} : asked made{i} script{i} ≡ some ({})\nunfolding compute_questions\nasked{i} = refl\n", asked_kept(&x));
        println!(
            "bits{i} : bits made{i} script{i} ≡ {}\nunfolding compute_questions\nbits{i} = refl\n",
            bits(&x.s)
        );
        println!(
            "state{i} : after made{i} script{i} ≡ some ({})\nunfolding compute\nstate{i} = refl\n",
            x.state()
        );
    }
}
